"""One request as it came, and one answer."""
import base64
import re
from dataclasses import dataclass, field

from .faults import Answered
from .names import split_destination, split_target
from .spool import MOST_IN_MEMORY, Mapped, Sent, mapped

USER = re.compile("[A-Za-z0-9._-]{1,32}")
MOST_PASSWORD = 400


@dataclass
class Reply:
    status: int
    body: bytes | Sent = b""
    fields: list[tuple[str, str]] = field(default_factory=list)


@dataclass
class Asked:
    method: str
    room: str | None
    path: str
    user: str
    password: str
    length: int  # of the body, which is read once it is its turn
    host: str
    environ: dict

    @classmethod
    def of(cls, environ: dict, most: int) -> "Asked":
        user, password = login_of(environ.get("HTTP_AUTHORIZATION", ""))
        room, path = split_target(environ.get("PATH_INFO", "").encode("latin-1"))
        if room is not None and environ.get("HTTP_DAV_ROOM") not in (None, room):
            raise Answered(400, "the address is of two rooms")
        return cls(environ["REQUEST_METHOD"], room, path, user, password, length_of(environ, most),
                   environ.get("HTTP_HOST", ""), environ)

    def body(self, most: int) -> bytes | Mapped:
        if self.length > most:
            raise Answered(413, f"that is longer than {most} bytes")
        file = self.environ["wsgi.input"]
        file.seek(0)  # (a visit that begins anew reads it again)
        # (waitress has it in a file)
        body = mapped(file.fileno(), self.length) if self.length > MOST_IN_MEMORY else file.read(self.length)
        if len(body) != self.length:
            raise Answered(400, "the body is cut short")
        return body

    def field(self, name: str) -> str | None:
        return self.environ.get("HTTP_" + name.upper().replace("-", "_"))

    @property
    def is_of_folder(self) -> bool:
        """Whether the address ends with a slash, without which most programs ask for files alone."""
        return self.environ.get("PATH_INFO", "").endswith("/")

    @property
    def wants_latest(self) -> bool:
        """Whether the page asks who changed what in a folder, and when."""
        return self.method == "GET" and self.environ.get("QUERY_STRING") == "latest"

    @property
    def depth(self) -> str:
        told = (self.field("Depth") or "infinity").strip().lower()
        if told not in ("0", "1", "infinity"):
            raise Answered(400, "Depth is 0, 1 or infinity")
        return told

    @property
    def may_overwrite(self) -> bool:
        told = (self.field("Overwrite") or "T").strip().upper()
        if told not in ("T", "F"):
            raise Answered(400, "Overwrite is T or F")
        return told == "T"

    def destination(self) -> str:
        told = self.field("Destination")
        if not told:
            raise Answered(400, "a field Destination is missing")
        room, path = split_destination(told, self.host)
        if room != self.room:
            raise Answered(502, "the destination is in another room: take it to your machine, and put it there")
        return path


def login_of(told: str) -> tuple[str, str]:
    kind, _, pair = told.partition(" ")
    try:
        user, colon, password = base64.b64decode(pair.strip(), validate=True).decode().partition(":")
    except ValueError:
        colon = user = password = ""
    if kind.lower() != "basic" or not colon or not USER.fullmatch(user) or len(password) > MOST_PASSWORD:
        raise Answered(401, "a login is needed")
    return user, password


def length_of(environ: dict, most: int) -> int:
    told = environ.get("CONTENT_LENGTH") or "0"
    if not re.fullmatch("[0-9]{1,10}", told):
        raise Answered(400, "the length of the body is no number")
    if int(told) > most:
        raise Answered(413, "a file has at most 16 MiB (16,777,216 bytes)")
    return int(told)
