"""From which text the program at crates/fileroom/out/fileroom was proved.

`make test` and `make build` note it in build/proved once they have proved the program; where nothing has changed
since, `make build` takes the program as it is. The note has a sum of what the proofs read (src/, specs/ and proofs/ of
fileroom and of the crates below it, crates.txt, HANDLES, the toolchain's name) and one of the program. Whoever can
write to build/ and crates/fileroom/out can deceive it; `make test` never reads it.
"""
import hashlib
import os
import shutil

TOP = os.path.dirname(os.path.dirname(os.path.abspath(__file__)))
PROGRAM = os.path.join(TOP, "crates", "fileroom", "out", "fileroom")
NOTE = os.path.join(TOP, "build", "proved")
PARTS = ("src", "specs", "proofs")


def libraries():
    """What each crate of crates.txt uses."""
    with open(os.path.join(TOP, "crates.txt"), encoding="utf-8") as file:
        lines = [line.partition("#")[0].partition(":") for line in file]
    return {name.split()[0]: uses.split() for name, _, uses in lines if name.strip()}


def crates_below(name, uses):
    """This crate and those below it."""
    found = {name}
    for it in uses[name]:
        found |= crates_below(it, uses) if it in uses else set()
    return found


def files(parts):
    """The files that the proofs of fileroom read, of these parts of its crates."""
    for crate in sorted(crates_below("fileroom", libraries())):
        for part in parts:
            for at, folders, names in os.walk(os.path.join(TOP, "crates", crate, part)):
                folders.sort()
                yield from (os.path.join(at, name) for name in sorted(names))
    yield from (os.path.join(TOP, name) for name in ("crates.txt", "HANDLES"))
    yield toolchain()


def toolchain():
    rt = os.path.realpath(shutil.which(os.environ.get("RT") or "rt") or "")
    return os.path.join(os.path.dirname(os.path.dirname(rt)), "KIT-ID")


def sum_of(path):
    if not os.path.isfile(path):
        return "none"
    with open(path, "rb") as file:
        return hashlib.sha256(file.read()).hexdigest()


def sources(parts=PARTS):
    """A sum of all that the proofs read, or of these parts alone."""
    whole = hashlib.sha256()
    for path in files(parts):
        name = os.path.relpath(path, TOP) if path.startswith(TOP + os.sep) else "toolchain"
        whole.update(f"{name}\0{sum_of(path)}\n".encode())
    return whole.hexdigest()


def forget():
    if os.path.exists(NOTE):
        os.remove(NOTE)


def note(of_sources):
    """Notes that the program is proved from the crates that have this sum."""
    os.makedirs(os.path.dirname(NOTE), exist_ok=True)
    with open(NOTE, "w", encoding="utf-8") as file:
        file.write(f"{of_sources} {sum_of(PROGRAM)}\n")


def is_proved(program=PROGRAM):
    """Whether this program was proved from the crates as they are now."""
    if not os.path.isfile(NOTE) or not os.path.isfile(program):
        return False
    with open(NOTE, encoding="utf-8") as file:
        return file.read() == f"{sources()} {sum_of(program)}\n"
