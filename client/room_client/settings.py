"""Where the room is and who asks: from flags, the environment, and a small file, in this order."""
import functools
import getpass
import hashlib
import ipaddress
import math
import os
import stat
import tomllib
import warnings
from dataclasses import dataclass, fields
from urllib.parse import SplitResult, urlsplit

from .faults import BadWords, LocalFault, reading
from .words import shown

HOME_FILE = "~/.config/room"
USERS = {"login", "room_user"}  # the names of who asks, of which one is given


@dataclass
class Settings:
    url: str = ""
    login: str | None = None  # a name that the front asks for, with its password
    password_file: str | None = None
    ca_file: str | None = None  # certificates of the authorities that are trusted, in place of this machine's
    room_user: str | None = None  # a user, told to the room itself
    state: str | None = None
    patience: float = 60.0  # seconds that a request is sent again
    password: str | None = None

    def __post_init__(self):
        if not self.url:
            raise BadWords(f"no URL of a room: give --url, or a line url = \"http://..\" in {HOME_FILE}")
        if (self.login is None) == (self.room_user is None):
            raise BadWords("give one of --login (through a front) and --room-user (straight to a room's port)")
        if not self.user.isprintable() or self.room_user and not self.room_user.isascii():
            raise BadWords("the user's name has odd letters")
        self.patience = patience_of(self.patience)
        self.url = self.url.rstrip("/")
        parts, _ = read_url(self.url)
        if self.login is not None and parts.scheme != "https" and not is_here(parts.hostname):
            raise BadWords(f"your password would go to {shown(parts.hostname)} in the clear, and nothing was sent: the "
                           "URL has to begin with https: (ask who runs the room)")

    @property
    def user(self) -> str:
        return self.room_user if self.login is None else self.login

    @property
    def state_path(self) -> str:
        """The file that keeps the session: one for each user and URL, where no other is named."""
        if self.state is not None:
            return os.path.expanduser(self.state)
        home = os.environ.get("XDG_STATE_HOME") or os.path.expanduser("~/.local/state")
        key = hashlib.sha256(f"{self.url}\n{self.user}".encode()).hexdigest()[:16]
        return os.path.join(home, "room", f"{urlsplit(self.url).hostname}-{key}.json")

    def find_password(self) -> None:
        """From its file, or else asked for at the terminal."""
        if self.login is None or self.password is not None:
            return
        if self.password_file is not None:
            self.password = read_password(os.path.expanduser(self.password_file))
            return
        try:
            with warnings.catch_warnings():
                warnings.simplefilter("error", getpass.GetPassWarning)  # (no terminal)
                self.password = getpass.getpass(f"password of {self.login} at {self.url}: ")
        except (EOFError, getpass.GetPassWarning):
            raise BadWords("no password: give --password-file, or run it at a terminal") from None


@functools.lru_cache(64)
def read_url(url: str) -> tuple[SplitResult, int | None]:
    try:
        parts = urlsplit(url)
        port = parts.port
        is_room = parts.scheme in ("http", "https") and parts.hostname and not parts.username
    except ValueError:
        is_room = False
    if not is_room or not url.isascii() or not url.isprintable() or set(url) & set(" ?#%"):
        raise BadWords(f"{shown(url)} is no URL of a room: http://HOST:PORT, or http://HOST/rooms/NAME")
    return parts, port


def is_here(host: str) -> bool:
    """Whether what is sent to a host stays on this machine."""
    try:
        return ipaddress.ip_address(host).is_loopback
    except ValueError:
        return host == "localhost"


def patience_of(given: float | str) -> float:
    try:
        seconds = float(given)
    except ValueError:
        seconds = math.nan
    if not 0 <= seconds <= 1e6:
        raise BadWords(f"patience is a number of seconds, not {given}")
    return seconds


def read_password(path: str) -> str:
    """The first line of a file that nobody else may read."""
    try:
        with reading(path), open(path, encoding="utf-8") as file:
            mode = os.fstat(file.fileno()).st_mode
            if stat.S_ISREG(mode) and mode & 0o077:
                raise LocalFault(f"others may read {path}: chmod 600 {path}")
            return file.readline().rstrip("\n")
    except UnicodeDecodeError:
        raise LocalFault(f"{path} is not UTF-8") from None


def read_file(path: str) -> dict:
    try:
        with reading(path), open(os.path.expanduser(path), "rb") as file:
            return tomllib.load(file)
    except ValueError:
        raise LocalFault(f"{path} is no TOML file of lines like: url = \"http://127.0.0.1:8001\"") from None


def variable(name: str) -> str:
    """The environment's name of a setting: ROOM_URL, ROOM_LOGIN, ROOM_USER .."""
    return "ROOM_" + name.upper().removeprefix("ROOM_")


def from_file(config: str | None, names: list[str]) -> dict:
    """The settings of a file, which has to be there where it was named."""
    config = config or os.environ.get("ROOM_CONFIG")
    path = config or HOME_FILE
    found = read_file(path) if config or os.path.exists(os.path.expanduser(path)) else {}
    odd = [it for it in found if it.replace("-", "_") not in names or not isinstance(found[it], (str, int, float))]
    if odd:
        raise BadWords(f"{path}: {odd[0]} is no setting: {', '.join(names)}")
    return {name.replace("-", "_"): str(it) for name, it in found.items()}


def find_settings(flags: dict, config: str | None) -> Settings:
    """`flags` has a value or None for each name. A flag for one of login and room-user sets the other aside."""
    names = [it.name for it in fields(Settings) if it.name != "password"]
    told = {name: flags[name] for name in names if flags.get(name) is not None}
    around = {name: os.environ[variable(name)] for name in names if variable(name) in os.environ}
    found = {}
    for source in told, around, from_file(config, names):
        aside = USERS if found.keys() & USERS else set()
        found = {name: it for name, it in source.items() if name not in aside} | found
    return Settings(**found)
