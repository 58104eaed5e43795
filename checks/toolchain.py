"""The toolchain's prover over libraries that are built: what `rt ci`, `rt lib` or bin/libraries left in crates/*/out."""
import os
import subprocess

TOP = os.path.dirname(os.path.dirname(os.path.abspath(__file__)))
PARTS = ("src", "specs", "proofs")


def kit():
    """The toolchain's folder."""
    return os.path.dirname(subprocess.run(["rt", "doc"], stdout=subprocess.PIPE, text=True, check=True).stdout.strip())


def lines():
    """Each crate with its kind, a static library or nothing, and what it stands on, from crates.txt."""
    found = {}
    with open(os.path.join(TOP, "crates.txt"), encoding="utf-8") as it:
        for line in it:
            head, _, deps = line.partition(":")
            if head.strip() and not head.startswith("#"):
                name, *kind = head.split()
                found[name] = kind, deps.split()
    return found


def below(known, name):
    """The repository's crates below, the lowest first, each once."""
    found = []
    for dep in known[name][1]:
        if dep in known:
            found += [it for it in [*below(known, dep), dep] if it not in found]
    return found


def library(name):
    return os.path.join(TOP, "crates", name, "out", "rlib", f"{name}.rlib")


def newest(name):
    """When a file of the crate's text was changed last."""
    found = [os.stat(os.path.join(TOP, "crates.txt")).st_mtime]
    for part in PARTS:
        for at, _, names in os.walk(os.path.join(TOP, "crates", name, part)):
            found += [os.stat(os.path.join(at, it)).st_mtime for it in names]
    return max(found)


def are_built(known, name):
    """Whether each library below is there, and no older than its text."""
    names = below(known, name)
    return all(os.path.exists(library(it)) and newest(it) <= os.stat(library(it)).st_mtime for it in names)


def build_below(known, name):
    """Builds the libraries below where they aren't built. Answers whether they are."""
    return are_built(known, name) or not subprocess.run([os.path.join(TOP, "bin", "libraries"), name], stdin=subprocess.DEVNULL).returncode


def words(known, name):
    """What the prover is told of a crate and of the libraries below it."""
    at, (kind, deps) = kit(), known[name]
    own, others = [it for it in deps if it in known], [it for it in deps if it not in known]
    program = os.path.exists(os.path.join(TOP, "crates", name, "src", "main.rt"))
    found = ["--crate-name", name, f"src/{'main' if program else 'lib'}.rt"]
    for dep in ["std", *others]:
        found += ["--extern", f"{dep}={at}/rlibs/{dep}.rlib"]
    found += ["-L", f"dependency={at}/rlibs"]
    for dep in own:
        found += ["--extern", f"{dep}={library(dep)}"]
    for dep in below(known, name):
        found += ["-L", f"dependency={os.path.dirname(library(dep))}"]
    found += ["--antt-project", f"{at}/rattle/logic/antt-project.json", "--logic-built", f"{at}/logic_built", "--links", f"{name}="]
    return found + (["--crate-type", "staticlib"] if "staticlib" in kind else [])


def prover():
    return os.path.join(kit(), "bin", "rattle")
