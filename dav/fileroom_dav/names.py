"""Paths: of a URL, and of a room. What a request names is looked at here before anybody is asked."""
import re
import secrets
from unicodedata import normalize
from urllib.parse import quote, unquote_to_bytes, urlsplit

from room_client.manifest import PART, is_hidden
from room_client.words import neat

from .faults import Answered

BASE = "/dav/"
ROOM = re.compile("[A-Za-z0-9_-]{1,32}")
CONTROLS = re.compile("[\x00-\x1f\x7f-\x9f]")
MOST_NAMES, MOST_BYTES = 16, 64
# What Finder and Explorer lay beside each file, and nobody looks at.
PASSING = re.compile(r"\._.*|\.DS_Store|\.Spotlight-V100|\.TemporaryItems|\.Trashes|\.fseventsd|\.hidden|"
                     r"\.metadata_never_index.*|desktop\.ini|Thumbs\.db", re.DOTALL | re.IGNORECASE)
# What programs lay beside a document while it is open, or is saved: it goes for good, and not to the trash.
SHORT_LIVED = re.compile(r"\.~lock\..*#|~\$.*|.*\.tmp|~WRL.*|\.~.*|.*~|\..*\.sw[a-z]|4913|\.goutputstream-.*|#.*#",
                         re.DOTALL | re.IGNORECASE)
TELLS_OTHERS = re.compile(r"\.~lock\..*#|~\$.*", re.DOTALL | re.IGNORECASE)  # who has a document open
EXCEL = re.compile("(?=.*[A-F])[0-9A-F]{8}")  # a name that Excel gives a new version
BACKUPS = (".bak", ".old", ".orig")
COPY_OF = re.compile("(?:copy|backup) of .*", re.DOTALL | re.IGNORECASE)


def split_target(raw: bytes) -> tuple[str | None, str]:
    """The room that a URL's path names, whose escapes were read once, or None above the rooms, and the path in it. What
    has `.` or `..` in it, or is no UTF-8, names nothing."""
    try:
        path = raw.decode()
    except UnicodeDecodeError:
        raise Answered(400, "the address is no UTF-8") from None
    if not path.startswith(BASE):
        if path in ("", "/", BASE.rstrip("/")):
            return None, "/"
        raise Answered(404, f"rooms are below {BASE}")
    names = [it for it in path.removeprefix(BASE).split("/") if it]
    if any(it in (".", "..") for it in names):
        raise Answered(400, "the address has . or .. in it")
    if not names:
        return None, "/"
    if not ROOM.fullmatch(names[0]):
        raise Answered(404, f"no room has the name {names[0]}")
    return names[0], "/" + "/".join(names[1:])


def split_destination(field: str, host: str) -> tuple[str | None, str]:
    """The same of a field Destination, which may name this server alone."""
    try:
        parts = urlsplit(field)
    except ValueError:
        raise Answered(400, "the field Destination is no URL") from None
    if parts.netloc and parts.netloc.lower() != host.lower():
        raise Answered(502, "the destination is another server")
    return split_target(unquote_to_bytes(parts.path))


def href(room: str, path: str, is_folder: bool) -> str:
    end = "/" if is_folder and path != "/" else ""
    return quote(f"{BASE}{room}{path}{end}", safe="/~!$'()*,;:@=+")


def last(path: str) -> str:
    return path.rpartition("/")[2]


def above(path: str) -> str:
    return path.rpartition("/")[0] or "/"


def below(path: str, name: str) -> str:
    return f"{path.rstrip('/')}/{name}"


def beside(path: str) -> str:
    """A name that nothing has, in the same folder, for a while."""
    name = last(path).encode()[:40].decode(errors="ignore")
    return below(above(path), f"{name}~{secrets.token_hex(8)}")


def is_below(path: str, top: str) -> bool:
    return path != top and (top == "/" or path.startswith(top + "/"))


def is_possible(path: str) -> bool:
    """Whether something may be there: what cannot is not asked for."""
    names = path.split("/")[1:] if path != "/" else []
    return len(names) <= MOST_NAMES and all(
        0 < len(it.encode()) <= MOST_BYTES and not CONTROLS.search(it) and not is_hidden(it) for it in names)


def for_making(path: str) -> str:
    """The path of what is made, where all of it is."""
    made = neat(path)
    if made == "/" or last(made).startswith(PART) or not is_possible(made):
        raise Answered(403, f"{made}: a name has 1 to 64 bytes of UTF-8 and no control characters, does not begin with "
                            f"{PART}, and a path has at most 16 names")
    return made


def composed(name: str) -> str:
    return normalize("NFC", name)


def has_blanks(path: str) -> bool:
    """Whether a name in it begins or ends with a blank."""
    return neat(path) != composed(path)


def is_passing(path: str) -> bool:
    return PASSING.fullmatch(last(neat(path))) is not None


def is_short_lived(path: str) -> bool:
    return SHORT_LIVED.fullmatch(last(path)) is not None


def is_temporary(path: str) -> bool:
    """Whether a program puts a new version under such a name, before that takes the document's."""
    name = last(path)
    return EXCEL.fullmatch(name) is not None or is_short_lived(path) and not TELLS_OTHERS.fullmatch(name)


def is_backup(path: str, source: str, is_fresh: bool = False) -> bool:
    """Whether it is a name that a program gives to what has been at `source`. (One that has only letters in common with
    the name of what was made a moment ago may be the document that this is to be a version of.)"""
    name = last(path)
    return (is_short_lived(path) or name.lower().endswith(BACKUPS) or COPY_OF.fullmatch(name) is not None
            or not is_fresh and last(source) in name)
