//! README.txt, for whoever holds a reader to the files: a short form of docs/VECTORS.md.
use super::Vectors;

/// The first line.
pub const TITLE: &str = "Test vectors for readers of integer runs of Apache ORC files (RLE version 2)\n";

const FORM: &str = "
Line N of NAME.expected is the answer that line N of NAME.in must get.

A line of NAME.in is hexadecimal. Its first byte is the flag: 00 if rows are unsigned, 01 if they are
signed (zigzag). The rest is one run, whole or cut. Bytes after the run are not read. A line has at most
8,800 characters.

The answers:

  run ROWS BYTES ROW ROW ..  a run: how many rows, how many bytes it takes up, and the rows as signed
                             64-bit numbers (an unsigned row of 2^63 or more shows below 0)
  refused NUMBER             the run is refused, and no row of it may be given
  end                        there is no byte after the flag

  1   the header is not all there
  2   patched base: patch width + gap width is over 64
  3   patched base: a patch does not fit above the value in 64 bits
  4   delta: a width, and only one row
  5   a varint's tenth byte is above 1
  6   the input ends in a short repeat's value or in a patched base
  7   patched base: the last entry of the list is a skip, two entries share a place, or a place is past
      the rows
  12  the input ends in a varint
  13  the input ends in packed rows, values or magnitudes
  14  the input ends in a patch list

To hold the program runs to them (nothing is printed if all answers are right):

  for name in widths patches sums cuts; do runs <$name.in | diff - $name.expected; done

To hold another reader to them, write a program of a few lines that reads such lines, calls the reader
with the flag and the bytes, and prints such answers. If the reader has one error for all refusals, print
`refused` alone, and compare with the numbers taken away:

  yours <$name.in | diff - <(sed 's/^refused .*/refused/' $name.expected)

A crash is a wrong answer too: let it stop one line, and not the others. docs/VECTORS.md in the repository
says more.
";

/// The whole text, with the lines that each part of a family has.
pub fn text(all: &[Vectors]) -> String {
    let families: String = all.iter().map(of_family).collect();
    format!("{TITLE}\nFour questions, two files each:\n\n{families}{FORM}")
}

fn of_family(vectors: &Vectors) -> String {
    let (family, mut before) = (vectors.family, 0);
    let mut text = format!("{}: {}\n", family.name, family.question);
    for (part, lines) in family.parts.iter().zip(&vectors.lines) {
        text += &format!("  lines {} to {}: {}\n", before + 1, before + lines, part.what);
        before += lines;
    }
    text
}
