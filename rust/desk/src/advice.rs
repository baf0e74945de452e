//! What a support desk does about a refused stream.
use menakovitsy::{Refusal, Refused};

use crate::looks::Looks;
use crate::stream::Stream;
use crate::walk::Counts;

/// A line is this long at most.
const COLUMNS: usize = 100;

/// A stream that is refused, the runs before that, and what the file looks like. The refused run begins after
/// their bytes.
pub struct Trouble {
    pub refused: Refused,
    pub stream: Stream,
    pub before: Counts,
    /// How many bytes the file has.
    pub length: u64,
    pub looks: Option<Looks>,
}

impl Trouble {
    /// What to do, in a sentence or two.
    pub fn advice(&self) -> String {
        if let Refusal::Unknown(_) = self.refused.refusal {
            return "link the library of this command's own revision".into();
        }
        match self.looks {
            Some(Looks::OrcFile) => ORC_FILE.into(),
            Some(Looks::Chunks(count)) => format!(
                "this is a stream that is still compressed: the headers of {count} chunk{} lead to its end. \
                 Decompress the chunks, and try again with what they hold",
                if count == 1 { "" } else { "s" }
            ),
            Some(Looks::Chunk(length)) => format!(
                "{}. It may still be compressed: its first three bytes would be the header of a chunk of {length} \
                 bytes. If the streams of its file are compressed, decompress it, and try again",
                self.plain()
            ),
            None => self.plain(),
        }
    }

    /// The same for a file that looks like nothing else.
    fn plain(&self) -> String {
        let (cut, what, others) = (self.refused.refusal.is_cut(), self.what(), self.others());
        if cut && self.before.runs == 0 {
            return format!(
                "the file ends inside its first run, so no row of it can be read: nearly all of it is missing, or \
                 it is no stream of {what}. Compare its length with the one that the file's footer has for the \
                 stream, and what kind of stream it is ({others})"
            );
        }
        let first = match cut {
            true => {
                "bytes are missing at the end: fetch the file again, and compare its length. If the length is \
                 right, a byte is damaged, in this run or in a length before it, and claims more than there is"
                    .into()
            }
            false => format!(
                "no run begins like this: a byte is damaged, in this run or in a length before it, or the file is \
                 no stream of {what} ({others}). Take the file from a copy that is good"
            ),
        };
        match self.stream {
            Stream::Integers(_) => format!("{first}. {SALVAGE}"),
            _ => first,
        }
    }

    fn what(&self) -> &'static str {
        match self.stream {
            Stream::Integers(_) => "integers",
            Stream::Flags => "flags",
            Stream::Bytes(_) => "bytes",
        }
    }

    /// How another kind of stream is read.
    fn others(&self) -> &'static str {
        match self.stream {
            Stream::Integers(_) => "--flags and --bytes read the others",
            _ => "without --flags and --bytes integers are read",
        }
    }
}

/// What to do with a whole ORC file.
pub const ORC_FILE: &str = "the file begins with ORC, as whole ORC files do, and this command reads one stream: take \
                            the stream's bytes out of the file (its footers say where they are), decompress them, \
                            and try again";

/// What is left if no better copy is found.
const SALVAGE: &str =
    "If there is no good copy, menakovitsy salvage keeps the row groups that are still good";

/// A text in lines, each but the first after an indent.
pub fn wrapped(text: &str, indent: usize) -> String {
    let mut lines = String::new();
    let mut column = indent;
    for word in text.split(' ') {
        if column + 1 + word.len() > COLUMNS {
            lines.push('\n');
            lines.extend(std::iter::repeat_n(' ', indent));
            column = indent;
        } else if !lines.is_empty() {
            lines.push(' ');
            column += 1;
        }
        lines.push_str(word);
        column += word.len();
    }
    lines
}

#[cfg(test)]
mod tests {
    use super::*;

    #[test]
    fn lines_are_short() {
        let text = wrapped(ORC_FILE, 14);
        assert!(text.lines().count() > 1 && text.lines().all(|line| line.len() <= COLUMNS), "{text}");
        assert!(text.lines().skip(1).all(|line| line.starts_with("              ") && line.len() > 14));
        let joined: Vec<&str> = text.split_whitespace().collect();
        assert_eq!(joined.join(" "), ORC_FILE);
    }
}
