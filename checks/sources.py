"""Reads what the Rust files of the crates declare for the pages of docs/generated: functions with their clauses, types with their doc comments."""
import os
import re

from reading import CRATES, TOP, files, read

FUNCTION = re.compile(r"(\s*)(pub(?:\([a-z]+\))? )?(?:const |unsafe |extern \"C\" )*fn (\w+)")
OWNER = re.compile(r"(pub(?:\([a-z]+\))? )?(?:unsafe )?(impl|trait)\b(.*)")
TYPE = re.compile(r"pub(?:\([a-z]+\))? (enum|struct) (\w+)")
CLAUSE = re.compile(r"(ensures|requires)\s+(?:(\w+)\s*)?\{")
ERROR_TEXT = re.compile(r'#\[error\("((?:[^"\\]|\\.)*)"')


class Clause:
    """A clause: whether it is `ensures`, its name or None, its text, the comment right above it, and that above its group, which an empty line ends."""

    def __init__(self, kind, name, text, comment, above):
        self.kind, self.name, self.text, self.comment, self.above = kind, name, text, comment, above


class Function:
    """A public function of a library, or a call of a public trait."""

    def __init__(self, crate, path, owner, name, doc):
        self.crate, self.path, self.owner, self.name, self.doc, self.result, self.clauses = crate, path, owner, name, doc, "", []

    @property
    def title(self):
        return f"{self.owner}::{self.name}" if self.owner else self.name


class Named:
    """An enum with its variants, as (name, doc comment), or a struct with its fields, as (name, type)."""

    def __init__(self, crate, kind, name, doc):
        self.crate, self.kind, self.name, self.doc, self.parts = crate, kind, name, doc, []


def crates():
    """Each crate with those that it stands on, from crates.txt."""
    lines = [line for line in read(os.path.join(TOP, "crates.txt")).splitlines() if line.strip() and not line.startswith("#")]
    return {line.split()[0].rstrip(":"): line.partition(":")[2].split() for line in lines}


def libraries():
    """The crates that have public functions, from the bottom, but those of tests."""
    return [it for it in crates() if not it.startswith("svc_tests_") and os.path.isfile(os.path.join(CRATES, it, "src", "lib.rt"))]


def owner_of(rest):
    """The type of an impl that isn't of a trait, or the trait of a declaration; None for an impl of a trait."""
    while re.search(r"<[^<>]*>", rest):
        rest = re.sub(r"<[^<>]*>", "", rest)
    if re.search(r"\bfor\b", rest):
        return None
    found = re.search(r"\w+", rest)
    return found[0] if found else None


def clause_at(lines, at):
    """The text of a clause that begins in this line, and the line after it."""
    depth, text = 0, []
    while at < len(lines):
        text.append(lines[at].strip())
        depth += lines[at].count("{") - lines[at].count("}")
        at += 1
        if depth <= 0:
            break
    return " ".join(text), at


def signature(lines, at, it):
    """Reads what stands between a function's name and its body into `it`. Answers the line after it."""
    head, comment, above = [], [], ""
    while at < len(lines):
        text = lines[at].strip()
        if CLAUSE.match(text):
            found = CLAUSE.match(text)
            body, at = clause_at(lines, at)
            above = " ".join(comment) or above
            it.clauses.append(Clause(found[1], found[2], body, " ".join(comment), above))
            comment = []
            if body.endswith("};"):
                break
            continue
        if text.startswith("//"):
            comment.append(text.lstrip("/ "))
        elif text in ("{", "{}", ";"):
            at += 1
            break
        elif text:
            head.append(text)
            if not it.clauses and text.endswith(("{", "{}", ";")):
                at += 1
                break
        else:
            comment, above = [], ""
        at += 1
    found = re.search(r"->\s*(.*?)\s*(?:\bwhere\b|[{;]|$)", " ".join(head))
    it.result = found[1] if found else ""
    return at


def read_types(crate, lines):
    """The enums and structs of a file."""
    doc, inside, found, said = [], None, [], ""
    for line in lines:
        text = line.strip()
        kind = TYPE.match(line)
        if kind:
            inside = Named(crate, kind[1], kind[2], " ".join(doc))
            found.append(inside)
            doc, said = [], ""
            if text.endswith((";", "}")):
                inside = None
        elif line.startswith("}"):
            inside, doc = None, []
        elif text.startswith("///"):
            doc.append(text[3:].strip())
        elif text.startswith("#["):
            said = f'"{ERROR_TEXT.match(text)[1]}"' if ERROR_TEXT.match(text) and "{" not in text else said
        elif inside and re.match(r"    (?:pub(?:\([a-z]+\))? )?\w+", line):
            part = re.match(r"    (?:pub(?:\([a-z]+\))? )?(\w+)(?::\s*(.*?),?$)?", line)
            inside.parts.append((part[1], " ".join(doc) or said) if inside.kind == "enum" else (part[1], part[2] or ""))
            doc, said = [], ""
        else:
            doc = []
    return found


def read_functions(crate, path, lines):
    """The public functions of a file, with those of its public traits."""
    found, doc, owner, in_trait, at = [], [], "", False, 0
    while at < len(lines):
        line, text = lines[at], lines[at].strip()
        start, of = FUNCTION.match(line), OWNER.match(line)
        if of:
            owner, in_trait = owner_of(of[3]), of[2] == "trait" and of[1] == "pub "
        elif line.startswith("}"):
            owner, in_trait = "", False
        if start:
            is_public = start[2] == "pub " or in_trait and start[1]
            it = Function(crate, path, owner if start[1] else "", start[3], " ".join(doc))
            at = signature(lines, at, it)
            if is_public and it.owner is not None:
                found.append(it)
            doc = []
            continue
        if text.startswith("///"):
            doc.append(text[3:].strip())
        elif not text.startswith("#["):
            doc = []
        at += 1
    return found


def all_of(crate):
    """The functions and the types of a crate."""
    functions, types = [], []
    for path in files(".rt", top=os.path.join(CRATES, crate, "src")):
        lines = read(path).split("\n")
        functions += read_functions(crate, path, lines)
        types += read_types(crate, lines)
    return functions, types
