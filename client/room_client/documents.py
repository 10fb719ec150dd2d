"""The commands on files and folders: each is given a room and its words, and shows what came of it."""
import base64
import os

from . import files, local, trash, trees, words
from . import manifest as form
from .faults import ACCESS, BadWords, Fault, LocalFault, Refused, refused_as
from .local import Progress, fits_here
from .reading import large_among, large_at, manifest_at
from .room import Room
from .showing import Faults, Told, show, write_bytes
from .words import FILE, FOLDER, neat, shown

OF_ONE = *trees.OF_ONE, BadWords
WITH_ALL = "the folder has something in it: room rm -r removes it with that"


def into(path: str, name: str) -> str:
    """A path that ends with / is a folder, for the same name."""
    return path + os.path.basename(name.rstrip("/")) if path.endswith("/") else path


def targets(to: str, names: list[str]) -> list[str]:
    """Where each goes: several go into a folder."""
    need_path(to)
    return [neat(into(to if len(names) == 1 else to.rstrip("/") + "/", it)) for it in names]


def moved_to(room: Room, path: str, to: str) -> str:
    """Where it goes, which is into a folder that is there."""
    try:
        is_folder = room.stat(to)["kind"] == FOLDER and not large_at(room, to)
    except Refused:
        is_folder = False
    return trees.join(to, os.path.basename(path)) if is_folder else to


def need_path(path: str) -> str:
    """(Before anything is sent.)"""
    if not path.startswith("/"):
        raise BadWords(f"'{shown(path)}' is no path of the room: a path begins with /")
    return path


def there(room: Room, path: str) -> str:
    """The path of something that is there: as it was given, or as it would have been made."""
    need_path(path)
    if neat(path) != path:
        try:
            room.stat(path)
        except Refused as fault:
            return neat(path) if refused_as(fault, "NOENT") else path
    return path


def each(items: list, does) -> None:
    faults = Faults(len(items))
    for it in items:
        try:
            does(it)
        except (*OF_ONE, Told) as fault:
            faults.take(fault)
    faults.end()


# Looking

def ls(room: Room, asked) -> None:
    path = there(room, asked.path)
    if asked.recursive:
        return ls_below(room, asked, path)
    reply = room.ask({"cmd": "LIST", "path": path})
    if asked.json and not asked.long:
        return show(asked, reply, "")
    names = trash.without_pool(path, dict(reply["names"]))
    if form.is_large(names) and manifest_at(room, path):
        raise Refused({"code": 2, "error": "NOTDIR"}, {"path": path})
    left = [it for it in names if form.is_hidden(it)]
    folders = [it for it, kind in names.items() if kind == FOLDER and it not in left]
    found = large_among(room, [trees.join(path, it) for it in folders])
    large = {it: found[trees.join(path, it)] for it in folders if trees.join(path, it) in found}
    seen = {it: FILE if large.get(it) else kind for it, kind in names.items() if it not in left}
    if asked.long:
        long_lines(room, asked, path, seen, large)
    else:
        show(asked, reply, "\n".join(shown(it) + "/" * (kind == FOLDER) for it, kind in seen.items()))
    for it in left:
        why = "is a manifest beside other things, which make no large file" if it == form.NAME else \
            "was left by an upload that was stopped, or is under way"
        room.say(f"{shown(trees.join(path, it))} {why}")


def ls_below(room: Room, asked, top: str) -> None:
    """Folder by folder."""
    tree = trees.tree_of(room, top)
    inside = trees.by_folder(tree)
    blocks = []
    for folder in ["", *sorted(it for it, kind in tree.kinds.items() if kind == FOLDER)]:
        lines = [shown(trees.join(top, folder) if folder else top) + ":", *map(shown, inside.get(folder, []))]
        blocks.append("\n".join(lines))
    show(asked, [{"path": it, "kind": kind} for it, kind in sorted(tree.kinds.items())], "\n\n".join(blocks))
    Faults(0).end(tree.shut)


def tree(room: Room, asked) -> None:
    path = there(room, asked.path)
    found = trees.tree_of(room, path)
    lines = [shown(path)]
    for it, kind in sorted(found.kinds.items(), key=lambda it: it[0].split("/")):
        names = it.split("/")
        lines.append("  " * len(names) + shown(names[-1]) + "/" * (kind == FOLDER))
    print("\n".join(lines), flush=True)
    Faults(0).end(found.shut)


def du(room: Room, asked) -> None:
    """How many bytes each thing in a folder has, with all that is in it, and the folder."""
    path = there(room, asked.path)
    found = trees.tree_of(room, path)
    sizes = trees.sizes_of(room, path, found, [it for it, kind in found.kinds.items() if kind == FILE])
    sums = {it: 0 for it in sorted(found.kinds) if "/" not in it}
    for it, size in sizes.items():
        sums[it.split("/")[0]] += max(size, 0)  # (one whose size may not be seen counts nothing)
    rows = [*((size, it + "/" * (found.kinds[it] == FOLDER)) for it, size in sums.items()), (sum(sums.values()), path)]
    wide = max(len(str(size)) for size, _ in rows)
    print("\n".join(f"{size:>{wide}}  {shown(name)}" for size, name in rows), flush=True)
    Faults(0).end(found.shut)


def long_lines(room: Room, asked, path: str, seen: dict[str, str], large: dict) -> None:
    """A line for each name with its size, and whose it is."""
    replies = room.ask_all({"cmd": "STAT", "path": trees.join(path, it)} for it in seen)
    rows = []
    for name, its in zip(seen, replies):
        size = large[name].size if large.get(name) else its.get("size")
        whose = f"{its['owner']}:{its['group']}" if its["code"] == 0 else "?"
        rows.append({"name": name, "kind": seen[name], "size": size, "whose": whose})
    if asked.json:
        return show(asked, rows, "")
    sizes = [("?" if it["size"] is None else str(it["size"])) + " inside" * (it["kind"] == FOLDER) for it in rows]
    wide, wider = (max(map(len, its), default=0) for its in (sizes, [it["whose"] for it in rows]))
    lines = [f"{size:>{wide}}  {it['whose']:{wider}}  {shown(it['name'])}" + "/" * (it["kind"] == FOLDER)
             for it, size in zip(rows, sizes)]
    show(asked, rows, "\n".join(lines))


def stat(room: Room, asked) -> None:
    path = there(room, asked.path)
    its = room.stat(path)
    large = its["kind"] == FOLDER and large_at(room, path)
    if large:
        what = f"file, {large.size} bytes in {len(large.pieces)} pieces"
    else:
        what = f"{its['kind']}, {its['size']} {'inside' if its['kind'] == FOLDER else 'bytes'}"
        if its["kind"] == FOLDER and its["size"] and form.is_unfinished(trash.names_in(room, path)):
            what = "unfinished upload"
    flags = words.list_flag_words(its["aclflag"])
    show(asked, its, f"{what}, owner {its['owner']}, group {its['group']}, list flags {flags}")


def find(room: Room, asked) -> None:
    top = there(room, asked.path)
    tree = trees.tree_of(room, top)
    for path in trees.find(tree, top, asked.pattern):
        print(shown(path))
    Faults(0).end(tree.shut)


# Getting

def get(room: Room, asked) -> None:
    *paths, to = asked.paths if len(asked.paths) > 1 else [*asked.paths, None]
    paths = [there(room, it) for it in paths]
    if asked.recursive:
        return each(paths, lambda it: get_folder(room, it, to or ".", len(paths) > 1))
    if len(paths) > 1 and not os.path.isdir(to):
        raise LocalFault(f"{shown(to)} is no folder here, and several files are to go there")
    each(paths, lambda it: get_one(room, it, to))


def cat(room: Room, asked) -> None:
    each(asked.paths, lambda it: write_bytes(read_all(room, there(room, it))))


def get_one(room: Room, path: str, to: str | None) -> None:
    data = read_all(room, path)
    if to is None or to == "-":
        return write_bytes(data)
    name = os.path.basename(path)
    if os.path.isdir(to):
        if not fits_here(name):
            raise LocalFault(f"{shown(name)} is no name of a file here: name another one")
        local.write_below(to, [name], data)
        to = os.path.join(to, name)
    else:
        local.write_local(to, data)
    print(f"{len(data)} bytes to {shown(to)}", flush=True)


def read_all(room: Room, path: str) -> bytes:
    bar = Progress(path, None, form.PIECE)
    try:
        return files.read(room, path, bar.heard)
    finally:
        bar.end()


def get_folder(room: Room, path: str, to: str, is_one_of_some: bool) -> None:
    """What is in a folder of the room, into a folder here."""
    if room.stat(path)["kind"] == FILE or manifest_at(room, path):
        return get_one(room, path, to)
    if is_one_of_some or to == "." or to.endswith("/"):
        to = os.path.join(to, os.path.basename(path.rstrip("/")))
    tree = trees.tree_of(room, path)
    paths = [it for it in sorted(tree.kinds) if can_be_here(room, path, it, tree)]
    faults = Faults(0)
    failed = local.make_all_below(to, [it for it in paths if tree.kinds[it] == FOLDER], faults.take)
    paths = [it for it in paths if not local.is_in(it, failed)]

    def take(it: str, data: bytes | Fault) -> None:
        try:
            if isinstance(data, Fault):
                raise data
            local.write_below(to, it.split("/"), data)
            print(f"{len(data)} bytes to {shown(os.path.join(to, it))}", flush=True)
        except OF_ONE as fault:
            faults.take(fault)

    trees.fetch_all(room, path, [it for it in paths if tree.kinds[it] == FILE], tree.large, take)
    for fault in tree.mixed:
        faults.take(fault)
    faults.end(tree.shut)


def can_be_here(room: Room, top: str, path: str, tree: trees.RoomTree) -> bool:
    why = tree.why_not_here(path)
    if why:
        room.say(f"{shown(trees.join(top, path))} is left out: {why}")
    return not why


# Putting

def put(room: Room, asked) -> None:
    *names, to = asked.names
    need_path(to)
    if not asked.recursive and len(names) == 1:
        return put_one(room, asked, names[0], neat(into(to, names[0])))
    pairs, shut, faults = [], [], Faults(0)
    for name, path in zip(names, targets(to, names)):
        if asked.recursive and os.path.isdir(name):
            tree = local.tree_here(name, room.say)
            shut += tree.shut
            folders = [it for it in tree.kinds if tree.kinds[it] == FOLDER]
            trees.tell_owners(room, trees.make_folders(room, path, folders, faults.take))
            pairs += [(tree.places[it], trees.join(path, it), name) for it in tree.kinds if tree.kinds[it] == FILE]
        else:
            pairs.append((name, path))

    def told(it: trees.Sent) -> None:
        if it.fault:
            return faults.take(it.fault)
        show(asked, {"code": 0, "size": it.size}, f"{shown(it.path)}: {it.size} bytes{it.words()}")

    trees.send_all(room, each_apart(pairs, faults.take), told)
    faults.end(shut)


def each_apart(pairs: list[tuple], take) -> list[tuple]:
    """Of those that would get one name in the room the first alone: another one would take its place."""
    found = {}
    for it in pairs:
        if found.setdefault(it[1], it) is not it:
            other, path = found[it[1]][:2]
            take(BadWords(f"{shown(it[0])}: {shown(other)} goes to {shown(path)} too: put this under another name"))
    return list(found.values())


def put_one(room: Room, asked, name: str, path: str) -> None:
    bar = Progress(path, len(asked.data), form.PIECE)
    fills = os.path.basename(name) == os.path.basename(path)
    try:
        owner = files.write(room, path, asked.data, is_new=asked.new, fills=fills, heard=bar.heard)
    finally:
        bar.end()
    words_of_owner = trees.version_of(owner)
    show(asked, {"code": 0, "size": len(asked.data)}, f"{shown(path)}: {len(asked.data)} bytes{words_of_owner}")


def lined(room: Room, path: str, data: bytes) -> bytes:
    """The bytes as lines of their own, behind a text that may not end its last one. Of what the caller may not read,
    nobody can tell."""
    try:
        before = room.read(path)
    except Refused as fault:
        if fault.reply["code"] != ACCESS:
            raise
        before = b""
    end = b"\r\n" if b"\r\n" in before else b"\n"
    return end * (before[-1:] not in (b"", b"\n")) + data + end * (data[-1:] != b"\n")


def append_lines(room: Room, path: str, data: bytes) -> dict:
    """Where these very lines were pending, they are not behind themselves."""
    def is_it(its: dict) -> bool:
        is_there = its["cmd"] == "APPEND" and its["path"] == path
        return is_there and base64.b64decode(its["data"]).strip(b"\r\n") == data.strip(b"\r\n")
    return room.stat(path) if room.was_done(is_it) else room.append(path, lined(room, path, data))


def append(room: Room, asked) -> None:
    path = there(room, asked.path)
    try:
        reply = (append_lines if asked.line else Room.append)(room, path, asked.data)
    except Refused as fault:
        if refused_as(fault, "ISDIR") and large_at(room, path):
            why = "it is a large file, and nothing is added at its end: get it, and put it anew"
            raise Refused(fault.reply, {"path": path}, why) from None
        raise
    show(asked, reply, f"{shown(path)}: {reply['size']} bytes")


def mkdir(room: Room, asked) -> None:
    path = need_path(neat(asked.path))
    show(asked, room.mkdir(path), f"{shown(path)}: made")


# Moving and removing

def mv(room: Room, asked) -> None:
    *paths, to = asked.paths

    def move(pair: tuple[str, str]) -> None:
        path, above = there(room, pair[0]), pair[1].rstrip("/") + "/"
        done = room.was_done(lambda it: it["cmd"] == "RENAME" and it["path"] == path and (
            it["to"] == pair[1] or it["to"] == above + os.path.basename(path)))
        at = done["to"] if done else moved_to(room, path, pair[1])
        reply = {"code": 0} if done else room.rename(path, at)
        show(asked, reply, f"{shown(path)} is now {shown(at)}")

    each(list(zip(paths, targets(to, paths))), move)


def cp(room: Room, asked) -> None:
    *paths, to = asked.paths

    def copy(pair: tuple[str, str]) -> None:
        path = there(room, pair[0])
        to = moved_to(room, path, pair[1])
        if f"{to}/".startswith(f"{path.rstrip('/')}/"):
            raise Refused({"code": 7, "error": "INVAL"}, {"path": path},
                          "nothing is copied into itself: correct the path")
        if asked.recursive and room.stat(path)["kind"] == FOLDER and not manifest_at(room, path):
            return copy_folder(room, asked, path, to)
        data = read_all(room, path)
        files.write(room, to, data)
        show(asked, {"code": 0, "size": len(data)}, f"{shown(path)} is also {shown(to)}")

    each(list(zip(paths, targets(to, paths))), copy)


def copy_folder(room: Room, asked, path: str, to: str) -> None:
    tree, faults = trees.tree_of(room, path), Faults(0)
    for fault in tree.mixed:
        faults.take(fault)
    trees.make_folders(room, to, [it for it, kind in tree.kinds.items() if kind == FOLDER], faults.take)

    def take(it: str, data: bytes | Fault) -> None:
        try:
            if isinstance(data, Fault):
                raise data
            one, other = trees.join(path, it), trees.join(to, it)
            files.write(room, other, data)
            show(asked, {"code": 0, "size": len(data)}, f"{shown(one)} is also {shown(other)}")
        except OF_ONE as fault:
            faults.take(fault)

    trees.fetch_all(room, path, [it for it, kind in tree.kinds.items() if kind == FILE], tree.large, take)
    faults.end(tree.shut)


def rm(room: Room, asked) -> None:
    place = None if asked.for_good else trash.trash_of(room)

    def remove(path: str) -> None:
        path = there(room, path)
        try:
            name = trash.discard(room, path, place, asked.recursive)
        except Refused as fault:
            if refused_as(fault, "NOTEMPTY") and not asked.recursive:
                raise Refused(fault.reply, {"path": path}, WITH_ALL) from None
            raise
        show(asked, {"code": 0}, f"{shown(path)}: removed" if name is None else f"{shown(path)}: in {shown(place)}")

    each(asked.paths, remove)


def trash_can(room: Room, asked) -> None:
    if asked.action == "empty":
        faults = Faults(0)
        count = trash.empty(room, faults.take)
        print(f"{count} removed for good", flush=True)
        faults.end()
    elif asked.action == "restore":
        if not 1 <= len(asked.names) <= 2:
            raise BadWords("room trash restore NAME [TO]")
        print(f"{shown(trash.restore(room, *asked.names, *[None] * (2 - len(asked.names))))}: restored")
    else:
        for name in trash.names_in(room, trash.need_trash(room)):
            its = trash.told_by(name)
            print(f"{shown(its.name)}  ({its.words()})" if its else shown(name))
