"""Reads the repository's files for the checks: where they are, and what an antt file declares and imports."""
import os
import re
import sys

TOP = os.path.dirname(os.path.dirname(os.path.abspath(__file__)))
CRATES = os.path.join(TOP, "crates")
# A name of antt: hyphens stand inside it.
TOKEN = re.compile(r"[^\W\d](?:[\w'⁻]|-(?=[\w⁻]))*")
DECLARED = re.compile(
    r"(?P<indent> *)(?P<how>(?:(?:abbrev|unfoldable|pub|record|data)\s+)*)(?P<name>(?:[^\W\d](?:[\w'⁻]|-(?=[\w⁻]))*)|[^\s:()]*◌[^\s:()]*)(?P<rest>\s.*|$)"
)
IMPORT = re.compile(r"\s*(?P<how>(?:pub |ghost |pub ghost )*)use Rattle\.(?P<module>[\w.«»-]+?)(?:\.\{(?P<items>[^}]*)\})?(?:\s+as\s+(?P<alias>\S+?))?;?\s*$")


def read(path):
    with open(path, encoding="utf-8") as it:
        return it.read()


def files(*endings, top=CRATES):
    """The files below the folder that end so, in order. What git and the toolchain keep is left out."""
    found = []
    for at, folders, names in os.walk(top):
        folders[:] = sorted(it for it in folders if it not in (".git", "out", "target", "__pycache__"))
        found += [os.path.join(at, name) for name in sorted(names) if name.endswith(endings)]
    return found


def short(path):
    return os.path.relpath(path, TOP)


def module_of(path):
    """The name of an antt file's module, without the first word."""
    return os.path.relpath(path, CRATES)[: -len(".antt")].replace(os.sep, ".")


def is_answer(path):
    """Whether the checker calls what the file declares: it belongs to one function's proof."""
    return os.path.basename(path) in ("Answers.antt", "Invariants.antt", "Proof.antt")


class Declared:
    """A lemma or definition: its name, its lines from the first to the one after the last, and its text."""

    def __init__(self, name, how, first):
        self.name, self.how, self.first, self.end, self.text = name, how, first, first, ""

    @property
    def is_public(self):
        return "pub" in self.how


def declarations(lines):
    """What an antt file declares: at its left edge, and at the left edge of each `module _`, also of one inside another. Its clauses belong to it."""
    found, edge, current = [], 0, None
    for at, line in enumerate(lines):
        text = line.rstrip()
        indent = len(text) - len(text.lstrip())
        if not text or text.lstrip().startswith("--"):
            continue
        word = text.lstrip()
        if word.startswith("module ") and indent <= edge:
            edge, current = indent + 2, None
            continue
        if indent < edge and word[0] not in "})]":
            edge = indent
        if indent == 0 and (text.startswith(("use ", "pub use ", "mod ", "pub mod ", "infix")) or text[0] in "})]"):
            if text[0] not in "})]":
                current = None
            elif current:
                current.end = at + 1
            continue
        if indent == edge:
            match = DECLARED.match(text)
            how = match["how"].split() if match else []
            if match and (how or match["rest"].lstrip().startswith(":")) and match["name"] not in ("unfolding", "where"):
                current = Declared(match["name"], how, at)
                found.append(current)
        if current:
            current.end = at + 1
    for it in found:
        it.text = "\n".join(lines[it.first:it.end])
    return found


def imports(lines):
    """The imports of a file, as (line, how, module, item or None, the name here)."""
    found = []
    for at, line in enumerate(lines):
        match = IMPORT.match(line)
        if not match:
            continue
        if match["items"] is None:
            found.append((at, match["how"], match["module"], None, match["alias"] or match["module"].rpartition(".")[2]))
            continue
        for item in filter(None, (it.strip() for it in match["items"].split(","))):
            name, _, alias = item.partition(" as ")
            found.append((at, match["how"], match["module"], name.strip(), (alias or name).strip()))
    return found


def known(name):
    """The rows of checks/known/NAME, without their reasons."""
    path = os.path.join(TOP, "checks", "known", name)
    lines = read(path).splitlines() if os.path.exists(path) else []
    return [line for line in lines if line and not line.startswith("#")]


def report(name, rows):
    """Prints the rows that aren't known, and the known ones that are no more. Answers the exit status. A known row `FILE: *` is
    of a file whose lemmas stand for themselves: it stands for each row of the file but imports."""
    before = set(known(name))
    whole = {row for row in rows if f"{row.split(': ')[0]}: *" in before and not row.split(": ")[1].startswith("use ")}
    new = [row for row in rows if row not in before and row not in whole]
    gone = sorted(before - set(rows) - {f"{row.split(': ')[0]}: *" for row in whole})
    for row in new:
        print(row)
    for row in gone:
        print(f"no more, so take it out of checks/known/{name}: {row}")
    print(f"checks/{name}: {len(rows)} found, {len(new)} of them new", file=sys.stderr)
    return 1 if new or gone else 0
