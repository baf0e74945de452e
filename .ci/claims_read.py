"""What .ci/claims reads: the words and tables of a page, what a file of definitions or proofs declares, and a room's functions with their contracts.

Every path is from the repository's root, where the caller stands. What was read is kept: `forget` drops it.
"""
import collections
import functools
import glob
import os
import re

# What stands between the words of a list.
NEXT = (", ", " and ", ", and ")

Function = collections.namedtuple("Function", "room name place public head requires ensures")


@functools.cache
def read(path):
    with open(path) as file:
        return file.read()


# ---- a page


def words(text):
    """The words in backquotes, each with what stands between it and the one before."""
    end = 0
    for match in re.finditer(r"`([^`\n]+)`", text):
        yield text[end : match.start()], match[1]
        end = match.end()


def listed(text, mark):
    """The words with this mark; and those behind one in a list, which share what stands before the mark."""
    before = None
    for gap, word in words(text):
        if mark in word:
            before = word.rpartition(mark)[0]
            yield word
        elif before and gap in NEXT:
            yield before + mark + word
        else:
            before = None


def cited(text):
    """The names that have a file in front of them, each with the file."""
    last, file = "", None
    for gap, word in words(text):
        in_front = gap == ": " and re.fullmatch(r"\w+/(specs|proofs)/[\w/]+\.antt", last)
        file = None if word.endswith(".antt") else last if in_front else file if gap in NEXT else None
        if file:
            yield file, word
        last = word


def section(page, heading):
    return read(page).partition(f"\n## {heading}\n")[2].partition("\n## ")[0]


def rows(text):
    """The rows of all tables, by the names of their columns."""
    columns = None
    for line in text.splitlines():
        cells = [cell.strip() for cell in line.strip("|").split("|")]
        if not line.startswith("|"):
            columns = None
        elif columns is None:
            columns = cells
        elif set(line) - set("|-: "):
            yield dict(zip(columns, cells))


def column(text, *names):
    """The cells of some columns, of all tables."""
    return "; ".join(row[name] for row in rows(text) for name in names if name in row)


# ---- definitions and proofs


def names_of(line):
    """The names that a line declares: one with its parameters, or several of one type."""
    match = re.match(r"\s*(?:(?:abbrev|unfoldable|pub|record|data) )*([^\s:({=][^:({=]*?) ?([:({])", line)
    if not match or not re.search(r"(^| ):( |$)", line) or match[1].split()[0] in ("--", "let", "use", "module", "λ"):
        return []
    return match[1].split()[: None if match[2] == ":" else 1]


def belongs(line, indent, name):
    """Whether a line behind the declaration of a name still belongs to it: a field, a clause, or what is further in."""
    return not line.strip() or line.startswith(" " * indent) and line[indent:].startswith((" ", f"{name} ", "unfolding "))


@functools.cache
def declared(path):
    """Each name that a file declares, with the text of its declaration: its type, its clauses, or its fields and cases."""
    found, lines = {}, read(path).splitlines() if os.path.exists(path) else []
    for i, line in enumerate(lines):
        for name in names_of(line):
            indent, last = len(line) - len(line.lstrip()), i + 1
            while last < len(lines) and belongs(lines[last], indent, name):
                last += 1
            found.setdefault(name, "\n".join(lines[i:last]))
    return found


def stands(file, name):
    """Whether a name, or a record's field, is declared in a file of a room."""
    head, _, field = name.partition(".")
    text = declared(f"crates/{file}").get(head)
    return text is not None and (not field or any(field in names_of(line) for line in text.splitlines()[1:]))


def names_in(text):
    """The names in a text of definitions, contracts or proofs, each as often as it stands there."""
    return collections.Counter(re.findall(r"\w[\w']*(?:-\w[\w']*)*", text))


def statement(file, theorem):
    """What a theorem says: its type, with the statements in its room's specs/ that the type names."""
    said = re.split(rf"\n\s*{re.escape(theorem)} ", declared(f"crates/{file}").get(theorem, ""))[0]
    specs = [declared(path) for path in glob.glob(f"crates/{file.split('/')[0]}/specs/*.antt")]
    return "\n".join([said, *(names[name] for names in specs for name in names_in(said) if name in names)])


# ---- code


def rooms():
    """The first word of each line of crates.txt: `staticlib` may stand between it and the colon."""
    return [line.split()[0].rstrip(":") for line in read("crates.txt").splitlines() if ":" in line.partition("#")[0]]


def is_program(room):
    return os.path.exists(f"crates/{room}/src/main.rt")


def sources(room):
    return sorted(glob.glob(f"crates/{room}/src/**/*.rt", recursive=True))


def blank(text, begin, end):
    return text[:begin] + re.sub(r"[^\n]", " ", text[begin:end]) + text[end:]


@functools.cache
def parsed(path):
    """A file's code, with comments, contracts and lines for the proofs made blank; and the contracts, by where they begin."""
    text, contracts = read(path), {}
    for match in re.finditer(r"//[^\n]*|^\s*(?:pub(?:\(\w+\))? )?ghost [^\n]*", text, re.M):
        text = blank(text, *match.span())
    for match in re.finditer(r"\b(requires|ensures)\*?(?:\s+\w+)?\s*\{", text):
        end, depth = match.end(), 1
        while depth:
            depth += {"{": 1, "}": -1}.get(text[end], 0)
            end += 1
        contracts[match.start()] = (match[1], text[match.end() : end - 1].strip())
        text = blank(text, match.start(), end)
    return text, contracts


@functools.cache
def functions(room):
    """All functions of a room, methods and private ones too: as many as its check prints."""
    found = []
    for path in sources(room):
        code, contracts = parsed(path)
        module = os.path.relpath(path, f"crates/{room}/src")[: -len(".rt")].replace("/", "::")
        for match in re.finditer(r"^([ \t]*)(pub(?:\(\w+\))? )?(?:extern \"C\" )?fn (\w+)", code, re.M):
            types = re.findall(r"^impl(?:<[^>]*>)? (\w+)", code[: match.start()], re.M) if match[1] else []
            name = "::".join([room, *([] if module in ("lib", "main") else [module]), *types[-1:], match[3]])
            body = code.index("{", match.end())
            said = [contract for begin, contract in sorted(contracts.items()) if match.start() < begin < body]
            clauses = [" & ".join(text for kind, text in said if kind == wanted) for wanted in ("requires", "ensures")]
            place = f"{path}:{code.count(chr(10), 0, match.start(3)) + 1}"
            found.append(Function(room, name, place, match[2] == "pub ", code[match.start() : body], *clauses))
    return found


@functools.cache
def public():
    """The public functions of the libraries, by name."""
    return {f.name: f for room in rooms() if not is_program(room) for f in functions(room) if f.public}


def is_equation(f):
    """Whether the contract, one clause alone, says what the answer is (of a unit, what its one field is), and nothing is lent to be changed; or, with
    no answer, what the one lent slice is. A case of `Result` or `Option` says what it holds."""
    match = re.fullmatch(r"(.+?) ≡ (.+)", f.ensures, re.S)
    if not match or " & " in f.ensures or re.search(r"\.\s*new\b", match[2]) or names_in(match[2])["result"]:
        return False
    if "->" in f.head:
        unit = re.search(r"-> (ByteOffset|RowNumber)\b", f.head)
        field = {None: "", "ByteOffset": ".bytes", "RowNumber": ".rows"}[unit and unit[1]]
        return re.sub(r"^(Ok|Err|Some) ", "", match[1]) in ("result", "result" + field) and not re.search(r"&\s*('\w+ )?mut\b", f.head)
    return [match[1]] == [f"{lent}.new" for lent in re.findall(r"(\w+): &(?:'\w+ )?mut ", f.head)]


def forget(pages_alone=False):
    """Drops what was read, for a tree that changes; where pages alone changed, what was made of the crates is kept."""
    read.cache_clear()
    for made in () if pages_alone else (declared, parsed, functions, public):
        made.cache_clear()
