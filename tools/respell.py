#!/usr/bin/env python3
"""Brings the repository's own names of definitions and lemmas to the spelling of today's Rattle: snake case for all but types and modules, so
`rowsLess` becomes `rows_less`. It goes over definitions, proofs, sources, edits and pages, and prints those that would fall together.
Run once, at the top, after the kit's own port.py: python3 tools/respell.py"""
import glob, re, sys

# one part of a name, between dashes: lower case first, a capital later
PART = re.compile(r"(?<![\w'\\])([a-z][a-z0-9_]*(?:[A-Z][A-Za-z0-9_]*)'*)(?![\w])")
# bytes and words that are written in hexadecimal, and names of the kit and of Lean's library
KEPT = re.compile(r"^(?:x[0-9A-F]{2}|x[0-9a-fA-F]+|b|fg0AA|getD|not_T)$")
# Lemmas that would have the name of the definition that they are about.
LEMMAS = {
    "crates/index/proofs/HoldingEntry.antt": ["holds_row"],
    "crates/convert/proofs/ConvertTurns.antt": ["is_odd"],
    "crates/labels/proofs/Labels.antt": ["none_below(?! =)"],
    "crates/promises/proofs/PatchCases.antt": ["too_large(?! =)"],
    "crates/promises/proofs/PatchedFate.antt": ["too_large(?! =)"],
    "crates/promises/proofs/PatchLists.antt": ["too_large(?! =)"],
    "crates/promises/proofs/Longest.antt": ["too_large(?! =)"],
    "crates/promises/proofs/Lines.antt": ["too_large(?! =)"],
    "crates/promises/proofs/PatchedTable.antt": ["row_count"],
    "crates/rescue/proofs/TruePositions.antt": ["not_after"],
    "crates/rescue/proofs/GroupEnds.antt": ["rows_in"],
    "crates/rescue/proofs/GroupReads.antt": ["rows_in"],
    "crates/boolean_rle/proofs/Ends.antt": ["flag_at"],
    "crates/boolean_rle/proofs/FlagReader.antt": ["flag_at"],
}
STRING = re.compile(r'b?"(?:[^"\\\n]|\\.)*"|b?\'(?:[^\'\\\n]|\\.)\'')

def snake(name):
    name = re.sub(r"([a-z0-9])([A-Z])", r"\1_\2", name)
    return name.lower()

def turned(text, names):
    def one(match):
        word = match.group(1)
        if KEPT.match(word):
            return word
        names.setdefault(word, snake(word))
        return names[word]
    out, last = [], 0
    for string in STRING.finditer(text):
        out.append(PART.sub(one, text[last:string.start()]))
        out.append(string.group(0))
        last = string.end()
    out.append(PART.sub(one, text[last:]))
    return "".join(out)

def turned_page(text, names):
    """In a page only names that the crates have, and only in code."""
    def one(match):
        return PART.sub(lambda m: names.get(m.group(1), m.group(1)), match.group(0))
    return re.sub(r"`[^`\n]+`", one, text)

def main():
    names, files = {}, {}
    for pattern in ("specs/**/*.antt", "proofs/**/*.antt", "src/**/*.rt", "must-fail/*.edit"):
        for path in sorted(glob.glob("crates/*/" + pattern, recursive=True)):
            files[path] = open(path, encoding="utf-8").read()
    for path, words in LEMMAS.items():
        if path in files:
            for word in words:
                files[path] = re.sub(rf"(?<![\w'.])({word.split('(')[0]})(?![\w']){word[len(word.split('(')[0]):]}", r"\1_lem", files[path])
    done = {path: turned(text, names) for path, text in files.items()}
    # names that fall together
    words = set(re.findall(r"[a-z][\w']*", "\n".join(files.values())))
    clash = sorted((old, new) for old, new in names.items() if new in words)
    for old, new in clash:
        print(f"falls together: {old} {new}", file=sys.stderr)
    for path in sorted(glob.glob("*.md") + glob.glob("docs/**/*.md", recursive=True)):
        files[path] = open(path, encoding="utf-8").read()
        done[path] = turned_page(files[path], names)
    changed = [path for path in files if done[path] != files[path]]
    for path in changed:
        with open(path, "w", encoding="utf-8") as file:
            file.write(done[path])
    print(f"{len(names)} names in {len(changed)} files")

if __name__ == "__main__":
    main()
