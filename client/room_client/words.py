"""Access lists in words, and back. docs/LISTS.md has what they mean; nothing here decides anything."""
import re
import unicodedata
from collections.abc import Iterable, Iterator

from .manifest import FOLDER, GONE, IN_PATH, NAME, NEW, PIECES, WRITING

FILE = "file"
LARGE = "large file"  # one document, whose list is that of the folder that holds its pieces

# Bit, word on a document, word on a folder, and other words that are taken.
RIGHTS = [
    (0x1, "read", "list", "read-data", "list-directory"),
    (0x2, "write", "add-file", "write-data"),
    (0x4, "append", "add-folder", "append-data", "add-subdirectory"),
    (0x8, "read-named-attrs", "read-named-attrs"),
    (0x10, "write-named-attrs", "write-named-attrs"),
    (0x20, "execute", "traverse"),
    (0x40, "delete-child", "delete-child"),
    (0x80, "read-attributes", "read-attributes", "stat"),
    (0x100, "write-attributes", "write-attributes"),
    (0x200, "write-retention", "write-retention"),
    (0x400, "write-retention-hold", "write-retention-hold"),
    (0x10000, "delete", "delete"),
    (0x20000, "read-acl", "read-acl"),
    (0x40000, "write-acl", "write-acl"),
    (0x80000, "write-owner", "write-owner"),
    (0x100000, "synchronize", "synchronize"),
]
ALL = 0x1F07FF
SETS = {"all": ALL, "change": 0x1301EF, "edit": 0x1200AF, "view": 0x1200A9, "none": 0}
BITS = {word: bit for bit, *words in RIGHTS for word in words} | SETS

TO_FILES, TO_FOLDERS, CHILDREN_ONLY, NOT_HERE, GROUP, INHERITED = 0x1, 0x2, 0x4, 0x8, 0x40, 0x80
FLAGS = {  # in the order in which they are shown; the first that fit a flag's bits say them
    "inherit": TO_FILES | TO_FOLDERS,
    "inherit-files": TO_FILES,
    "inherit-folders": TO_FOLDERS,
    "children-only": CHILDREN_ONLY,
    "not-here": NOT_HERE,
    "inherited": INHERITED,
}
TYPES = ["allow", "deny"]
FOLLOWS, PROTECTED, DEFAULTED = 0x1, 0x2, 0x4  # (the first takes over what the folder above hands down)
LIST_FLAGS = {"auto-inherit": FOLLOWS, "protected": PROTECTED, "defaulted": DEFAULTED}

GRAMMAR = """\
an entry of a list:  allow|deny WHO RIGHTS [INHERITANCE..]

  WHO          bob (a user), group:staff (a group), OWNER@, GROUP@ (the object's own group), EVERYONE@
  RIGHTS       words with commas between them. A right has a word for documents and one for folders:
                 read/list  write/add-file  append/add-folder  execute/traverse (go through a folder to what is in it)
                 delete  delete-child (what is in a folder)  read-attributes (ask for owner and size)
                 read-acl  write-acl (see and set the list)  write-owner (chown)
                 read-named-attrs  write-named-attrs  write-attributes  write-retention  write-retention-hold
                 synchronize (these are kept, and no command asks for them)
               or sets of them: view (see it and what is in it), edit (view, write, append, add), change (edit, and
               delete and delete-child), all, none
  INHERITANCE  on folders: inherit (hand it down to files and folders), inherit-files, inherit-folders,
               children-only (and no further down), not-here (it does not count on the folder itself).
               'inherited' marks an entry that came from the folder above: it is changed there.

The first entry that names a right for somebody decides it, so put what denies in front. What no entry names is denied.
A list has flags of its own, on a line 'flags WORDS': auto-inherit (it follows its folder), protected (it does not,
whatever auto-inherit says), defaulted (kept, no effect), or none.
"""


# Letters that Python takes for printable and that show nothing (Unicode: Default_Ignorable_Code_Point, and a blank).
UNSEEN = re.compile("[\u034f\u115f\u1160\u17b4\u17b5\u180b-\u180f\u2800\u3164\ufe00-\ufe0f\uffa0\U000e0100-\U000e01ef]")
END_BLANKS = re.compile("(?<![^/]) +| +(?![^/])")


def escaped(letters: str) -> str:
    return "".join(f"\\x{ord(it):02x}" if it == " " else ascii(it)[1:-1] for it in letters)


def shown(text: str) -> str:
    """A text whose letters can do nothing to a terminal and hide nothing from who reads it: others than printable
    ones, those that show nothing, and blanks at the ends of names are written as escapes."""
    text = END_BLANKS.sub(lambda it: escaped(it[0]), text)
    return "".join(it if it.isprintable() and not UNSEEN.match(it) else escaped(it) for it in text)


def neat(path: str) -> str:
    """A path for what is made: its letters composed (Unicode NFC), and without blanks at the ends of its names."""
    return "/".join(it.strip() for it in unicodedata.normalize("NFC", path).split("/"))


def is_part(command: dict) -> bool:
    """Whether a request is a step of many, which nobody goes on with once they were stopped. (The one that gives a
    file its name back is done, however late.)"""
    path, to = command.get("path", ""), command.get("to", "")
    gives_back = path.rpartition("/")[2].startswith(NEW) and to and not IN_PATH.search(to)
    return not gives_back and any(map(IN_PATH.search, (path, to)))


def is_behind(command: dict) -> bool:
    """Whether a request empties what was before a version that is there."""
    path, to = command["path"], command.get("to", "")
    is_rest = command["cmd"] == "WRITE" and f"/{WRITING}" not in path and not path.endswith(f"/{NAME}")
    return is_rest or f"/{PIECES}" in path and f"/{GONE}" in to


def whole_of(command: dict) -> str:
    """What such a request is a step of: the file, or the folder that it is in."""
    path = command["path"]
    part = IN_PATH.search(path)
    return path[:part.start()] or "/" if part else path


def right_words(bit: int, *kinds: str) -> list[str]:
    """The word or words of one right, on the kinds of objects that are named."""
    file_word, folder_word = next(it[1:3] for it in RIGHTS if it[0] == bit)
    words = [word for kind, word in ((FOLDER, folder_word), (FILE, file_word)) if kind in kinds]
    return list(dict.fromkeys(words))


def mask_words(mask: int, *kinds: str) -> str:
    """A set's name, or the words of each right. A mask with unknown bits has them as a number."""
    for name, value in SETS.items():
        if mask == value:
            return name
    words = [word for bit, *_ in RIGHTS if mask & bit for word in right_words(bit, *kinds)]
    return ",".join(words + [hex(mask & ~ALL)] * bool(mask & ~ALL))


def read_mask(text: str) -> int:
    mask = 0
    for word in text.lower().replace("_", "-").split(","):
        if word not in BITS:
            raise ValueError(f"'{shown(word)}' is no right: room acl --help names them")
        mask |= BITS[word]
    return mask


def flag_words(flag: int) -> Iterator[str]:
    for word, bits in FLAGS.items():
        if flag & bits == bits:
            yield word
            flag &= ~bits


def kinds_of(entry: dict, kind: str) -> set[str]:
    """For which kinds of objects an entry on an object of this kind counts, there or further down."""
    if kind == LARGE:
        return {FILE}
    down = {name for name, bit in ((FILE, TO_FILES), (FOLDER, TO_FOLDERS)) if entry["flag"] & bit}
    return down if entry["flag"] & NOT_HERE and down else down | {kind}


def entry_words(entry: dict, kind: str) -> str:
    """An entry as a line, for `read_entry` to take back."""
    who = f"group:{entry['who']}" if entry["flag"] & GROUP else entry["who"]
    rights = mask_words(entry["mask"], *kinds_of(entry, kind))
    return " ".join([TYPES[entry["type"]], who, rights, *flag_words(entry["flag"])])


def read_entry(line: str) -> dict:
    words = line.split()
    if len(words) < 3 or words[0] not in TYPES:
        raise ValueError(f"'{shown(line)}' is no entry: allow|deny WHO RIGHTS [INHERITANCE..]")
    kind, who, rights, *inheritance = words
    flag = GROUP if who.startswith("group:") else 0
    for word in inheritance:
        if word not in FLAGS:
            raise ValueError(f"'{shown(word)}' is no inheritance: {', '.join(FLAGS)}")
        flag |= FLAGS[word]
    name = who.removeprefix("group:")
    if not re.fullmatch(r"[A-Za-z0-9._-]{1,32}|(OWNER|GROUP|EVERYONE)@", name):
        raise ValueError(f"'{shown(who)}' is nobody: NAME, group:NAME, OWNER@, GROUP@ or EVERYONE@")
    return {"flag": flag, "mask": read_mask(rights), "type": TYPES.index(kind), "who": name}


def is_following(aclflag: int) -> bool:
    """Whether a list takes over what the folder above hands down."""
    return aclflag & (FOLLOWS | PROTECTED) == FOLLOWS


def list_flag_words(aclflag: int) -> str:
    return ",".join(word for word, bit in LIST_FLAGS.items() if aclflag & bit) or "none"


def read_list_flags(text: str) -> int:
    words = [] if text == "none" else text.split(",")
    wrong = [it for it in words if it not in LIST_FLAGS]
    if wrong:
        raise ValueError(f"'{shown(wrong[0])}' is no flag of a list: {', '.join(LIST_FLAGS)} or none")
    return sum(LIST_FLAGS[it] for it in set(words))


def list_text(reply: dict, kind: str) -> str:
    """What GETLIST replied, as lines that `read_list` takes back."""
    lines = [f"flags {list_flag_words(reply['aclflag'])}"]
    return "\n".join(lines + [entry_words(it, kind) for it in reply["entries"]]) + "\n"


def read_list(lines: Iterable[str]) -> tuple[int | None, list[dict]]:
    """The list flags, or None where no line says them, and the entries. Behind # stands what nobody reads."""
    aclflag, entries = None, []
    for line in lines:
        words = line.partition("#")[0].split()
        if words[:1] == ["flags"] and len(words) == 2:
            aclflag = read_list_flags(words[1])
        elif words:
            entries.append(read_entry(" ".join(words)))
    return aclflag, entries
