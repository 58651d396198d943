"""What `rt ci` leaves of the crates that it proved, for tools that go on over it."""

import functools
import os
import pathlib
import shutil

ROOT = pathlib.Path(__file__).resolve().parent.parent
CRATES = ROOT / "crates"


@functools.lru_cache(maxsize=None)
def kit():
    """The folder of the toolchain, or None where its command is not found."""
    found = shutil.which("rt")
    if found is None:
        return None
    return pathlib.Path(os.environ.get("KIT") or pathlib.Path(found).resolve().parent.parent)


@functools.lru_cache(maxsize=None)
def rows():
    """The libraries that each crate of crates.txt stands on."""
    listed = {}
    for line in (ROOT / "crates.txt").read_text(encoding="utf-8").split("\n"):
        head, _, libraries = line.partition("#")[0].partition(":")
        if head.strip():
            listed[head.split()[0]] = libraries.split()
    return listed


def below(name):
    """The crates of the repository that a crate stands on, the lowest first."""
    found = {}
    for library in rows()[name]:
        if library in rows():
            found.update(below(library))
            found[library] = True
    return found


def proved(name):
    """What the gate leaves of a proved crate."""
    return CRATES / name / "out" / "rlib" / f"{name}.rlib"


def is_fresh(name):
    """Whether a crate was proved after its last change, by the gate, which leaves no stamp."""
    made = proved(name)
    if not made.exists() or (made.parent / "stamp").exists():
        return False
    sources = [path for part in ("src", "specs", "proofs") for path in (CRATES / name / part).rglob("*")]
    return all(path.stat().st_mtime <= made.stat().st_mtime for path in [ROOT / "crates.txt", *sources])


def is_there(names):
    """Whether the gate proved these crates after their last changes, by a toolchain that is here."""
    return kit() is not None and (kit() / "bin" / "rattle").exists() and all(is_fresh(name) for name in names)


def words(command, name):
    """The words of the toolchain's `rattle` for a crate over the proved ones."""
    root = "src/main.rt" if (CRATES / name / "src" / "main.rt").exists() else "src/lib.rt"
    said = [kit() / "bin" / "rattle", command, "--crate-name", name, root]
    for library in dict.fromkeys(["std", *rows()[name]]):
        made = proved(library) if library in rows() else kit() / "rlibs" / f"{library}.rlib"
        said += ["--extern", f"{library}={made}"]
    for folder in [kit() / "rlibs", *[proved(it).parent for it in below(name)]]:
        said += ["-L", f"dependency={folder}"]
    logic = kit() / "rattle" / "logic" / "antt-project.json"
    return [*said, "--antt-project", logic, "--logic-built", kit() / "logic_built"]
