"""Rust sources cut into the bodies of their functions, and proofs of functions left out."""
import os
import re
import shutil

from served import text_of

OWNER = re.compile(r"(?:unsafe )?(?:impl\b|(?:pub )?trait )")
HEAD = re.compile(r"( *)(?:pub(?:\([a-z ]+\))? )?(?:const |unsafe )*fn (\w+)")
TYPE = re.compile(r"^(?:pub(?:\([a-z ]+\))? )?(?:struct|enum|trait) (\w+)", re.M)
HOLE = """use {module}.Statement.{{statement}}

pub {name}_spec : {{M : Type 1}} → statement M
{name}_spec = ?
"""


def owner_of(head):
    """What stands before a method's name where a check prints it: the type, and the trait with its arguments, save
    those that are parameters of the implementation."""
    head = re.sub(r"\A(unsafe )?(pub )?(impl|trait)\s*|\{.*", "", head)
    parameters = re.match(r"<[^<>]*(<[^<>]*>[^<>]*)*>", head)
    own = set(re.findall(r"[<,]\s*(\w+)", parameters[0])) if parameters else set()
    trait, _, named = head[parameters.end() if parameters else 0 :].rpartition(" for ")
    words = (it for it in re.findall(r"(?<!')\b[A-Za-z_]\w*", trait) if it not in own)
    return re.search(r"\w+", named)[0] + "".join(words)


def modules_of(path):
    return [it for it in path[len("src/") : -len(".rt")].split("/") if it not in ("lib", "main", "mod")]


def pieces_of(path, text):
    """The file, laid out by rt fmt, cut into (function, text): a body stands under its function's name, and all between
    them under ''. A body ends at the brace below the first letter of its function's head."""
    modules = modules_of(path)
    pieces, owner, head, is_inside = [["", ""]], "", None, False
    for line in text.splitlines(True):
        bare = line.rstrip()
        if is_inside and bare == head[1] + "}":
            head, is_inside = None, False
            pieces.append(["", ""])
        pieces[-1][1] += line
        if is_inside:
            continue
        if OWNER.match(line) or bare == "}":
            owner, head = "" if bare == "}" else owner_of(bare), None
        head = HEAD.match(line) or head
        is_at_head = head and (HEAD.match(line) or bare == head[1] + "{" or line.startswith(head[1] + ")"))
        if is_at_head and bare.endswith("{"):
            is_inside = True
            pieces.append(["::".join([owner, head[2]] if owner else [*modules, head[2]]), ""])
    return pieces


def paths_of(folder):
    files = (f"{above}/{name}" for above, _, names in os.walk(f"{folder}/src") for name in names)
    return sorted(os.path.relpath(it, folder) for it in files if it.endswith(".rt"))


def folders_of(folder):
    """The folder of each function's proof, by the function's name in `pieces_of`: below its module or, of a method that
    is no trait's, below the module of its type. Those that call themselves are left out, since their folders hold one
    proof of all."""
    files = {path: text_of(f"{folder}/{path}") for path in paths_of(folder)}
    homes = {name: modules_of(path) for path, text in files.items() for name in TYPE.findall(text)}
    found = {}
    for path, function in ((path, it) for path, text in files.items() for it, _ in pieces_of(path, text) if it):
        *above, last = function.split("::")
        if above and above[0][0].isupper():
            above = [*homes.get(above[0], modules_of(path)), *above]
        place = "/".join(["proofs", *above])
        if not os.path.isdir(f"{folder}/{place}/+{last}"):
            found[function] = f"{place}/{last}"
    return found


def leave_out(room, crate, folders):
    """Leaves the bodies and proofs of these functions, by the folders of their proofs, out of a copy of the crate in
    `room`: each becomes a loop with a hole in the place of its proof. A check that allows holes then takes their
    contracts as they are written."""
    for path in paths_of(room) if folders else ():
        pieces = pieces_of(path, text_of(f"{room}/{path}"))
        with open(f"{room}/{path}", "w", encoding="utf-8") as it:
            it.write("".join("loop {}\n" if name in folders else text for name, text in pieces))
    for it in folders.values():
        above, name = os.path.split(f"{room}/{it}")
        shutil.rmtree(f"{above}/fn/{name}", ignore_errors=True)
        for file in ("Answers.antt", "Invariants.antt"):
            if os.path.exists(f"{room}/{it}/{file}"):
                os.remove(f"{room}/{it}/{file}")
        os.makedirs(f"{room}/{it}", exist_ok=True)
        module = ".".join(["Rattle", crate, *it.split("/")])
        with open(f"{room}/{it}/Proof.antt", "w", encoding="utf-8") as file:
            file.write(HOLE.format(module=module, name=name))
