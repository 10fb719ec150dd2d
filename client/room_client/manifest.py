"""The manifest of a large file, and the names of what lies in its folder: docs/FILES.md has the form.

`fileroom-one` reads this file too, as root: it stands on the standard library alone, and on nothing beside it.
"""
import hashlib
import json
import re
import secrets
from dataclasses import dataclass

PART = ".room-"  # begins the names of what a large file is made of
NAME = PART + "file"
WRITING, PIECES, GONE, NEW = (PART + it for it in ("writing-", "pieces-", "gone-", "new-"))
PIECE = 65536  # bytes of each piece but the last
MOST = 1 << 24  # bytes of a file
MOST_PIECES = 256
MOST_TEXT = 20_000  # bytes of a manifest; the longest has some 17,000
MEMBERS = {"folder", "form", "pieces", "sha256", "size"}
LEFT_BESIDE = re.compile(re.escape(PART) + "(gone|new)-[0-9a-f]{16}")  # of a document's replacement
FOLDER_NAME = re.compile(re.escape(PIECES) + "[0-9a-f]{16}")
PART_NAME = re.compile(f"({re.escape(WRITING)}|{re.escape(PIECES)}|{re.escape(GONE)})[0-9a-f]{{16}}")
IN_PATH = re.compile(f"/(?:{re.escape(NAME)}|{PART_NAME.pattern}|{LEFT_BESIDE.pattern})(?:/|\\Z)")
OUR_PIECE = re.compile("[0-9]{3}")  # as a version names them that is made here
PIECE_NAME = re.compile(r"(?!\.{1,2}$)[A-Za-z0-9._-]{1,64}")
SUM = re.compile("[0-9a-f]{64}")
FOLDER = "folder"  # a kind


@dataclass(frozen=True)
class Manifest:
    folder: str
    pieces: tuple[str, ...]
    sha256: str
    size: int

    @classmethod
    def of(cls, data: bytes) -> "Manifest":
        """Of a new version."""
        count = max(-(-len(data) // PIECE), 1)
        pieces = tuple(f"{it:03d}" for it in range(count))
        return cls(PIECES + secrets.token_hex(8), pieces, hashlib.sha256(data).hexdigest(), len(data))

    def text(self) -> bytes:
        return compact({"folder": self.folder, "form": 1, "pieces": self.pieces, "sha256": self.sha256,
                        "size": self.size})

    def length_of(self, number: int) -> int:
        """Of a piece."""
        return min(self.size - PIECE * number, PIECE)

    def is_of(self, data: bytes) -> bool:
        return len(data) == self.size and hashlib.sha256(data).hexdigest() == self.sha256


def compact(members: dict) -> bytes:
    return json.dumps(members, separators=(",", ":"), sort_keys=True).encode()


def read_manifest(text: bytes) -> Manifest | None:
    """None where it is of another form, or no such text: whoever may write a document may write any."""
    if len(text) > MOST_TEXT:
        return None
    try:
        found = json.loads(text.decode("ascii"))
    except (ValueError, RecursionError):
        return None
    if not isinstance(found, dict) or found.keys() != MEMBERS:
        return None
    folder, pieces, sha256, size = (found[it] for it in ("folder", "pieces", "sha256", "size"))
    fits = (is_number(found["form"], 1, 1) and is_text(folder, FOLDER_NAME) and is_text(sha256, SUM)
            and type(pieces) is list and len(pieces) <= MOST_PIECES and all(is_text(it, PIECE_NAME) for it in pieces)
            and len(set(pieces)) == len(pieces) and is_number(size, PIECE * (len(pieces) - 1), PIECE * len(pieces)))
    # (a member that stands twice, or a number or a letter in another way, makes it longer)
    if not fits or len(re.sub(rb"[ \t\r\n]", b"", text)) != len(compact(found)):
        return None
    return Manifest(folder, tuple(pieces), sha256, size)


def is_text(it: object, form: re.Pattern) -> bool:
    return type(it) is str and form.fullmatch(it) is not None


def is_number(it: object, least: int, most: int) -> bool:
    return type(it) is int and least <= it <= most


def is_hidden(name: str) -> bool:
    """Whether it is what uploads make in a folder or in a file, and nobody's name for anything."""
    return name == NAME or bool(PART_NAME.fullmatch(name) or LEFT_BESIDE.fullmatch(name))


def other_name(kind: str) -> str:
    return kind + secrets.token_hex(8)


def beside(name: str) -> tuple[str, str]:
    """Where a document lies and what takes its place, until the one is gone and the other has its name: whoever writes
    that name next finds both."""
    mark = hashlib.sha256(name.encode(errors="surrogateescape")).hexdigest()[:16]
    return GONE + mark, NEW + mark


def are_parts(names: dict[str, str]) -> bool:
    """Whether these are folders that a large file is made of."""
    return all(kind == FOLDER and PART_NAME.fullmatch(name) for name, kind in names.items())


def is_unfinished(names: dict[str, str]) -> bool:
    """Whether a folder with these names is a file whose first version was never whole."""
    return bool(names) and are_parts(names)


def is_large(names: dict[str, str]) -> bool:
    """Whether a folder with these names is a large file and nothing besides. Anyone who may add to a folder may put a
    manifest into it, or other things beside one: what lies there is neither hidden by it nor removed with it."""
    return NAME in names and names[NAME] != FOLDER and are_parts({it: names[it] for it in names if it != NAME})


def piece(data: bytes, number: int) -> bytes:
    return data[PIECE * number:PIECE * (number + 1)]
