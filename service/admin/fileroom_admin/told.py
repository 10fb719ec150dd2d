"""Who changed what in a room, and when: the front's log of changes, with a line for each change."""
import collections
import contextlib
import datetime
import gzip
import hashlib
import json
import os
import re
import zlib

from room_client.manifest import IN_PATH
from room_client.room import DONE_MOST

from .lists import Lists, begins
from .owned import of_backups
from .places import CHANGES, Fault
from .words import entries, is_entry

ODD_MOST = 200  # letters of one in an odd form
WAITING = 5000  # changes that may still be sent again, or go on
MOST_PLACES = 20  # of lines that cannot be read
OF_A_FILE = {"MKDIR", "CREATE", "WRITE", "APPEND", "RENAME", "REMOVE", "CHOWN"}
BEGIN = b'{"time":"'  # of a line: within one such marks have a backslash
APART = datetime.timedelta(minutes=10)  # pieces of a large file that come later than this are another upload
# of a large file (docs/FILES.md)
PART = re.compile(f"(.+?){IN_PATH.pattern}.*")


def files_of(places):
    """The log's files, the oldest first."""
    folder, name = os.path.split(places.at(CHANGES))
    found = {}
    # (one that was not compressed to its end stands there whole too, and comes after)
    for it in sorted(os.listdir(folder), reverse=True) if os.path.isdir(folder) else []:
        number = re.fullmatch(rf"{re.escape(name)}(?:\.(\d+)(?:\.gz)?)?", it)
        if number:
            found[int(number[1] or 0)] = os.path.join(folder, it)
    return [found[it] for it in sorted(found, reverse=True)]


def lines_of(places, since):
    for path in files_of(places):
        if since and os.stat(path).st_mtime < since.timestamp():
            continue
        with (gzip.open if path.endswith(".gz") else open)(path, "rb") as file:
            try:
                for line in file:
                    at = line.rfind(BEGIN, 1)  # (of what a full disk cut, the next one follows in its line)
                    yield from [line[:at], line[at:]] if at > 0 else [line]
            except (EOFError, gzip.BadGzipFile, zlib.error):
                yield b"what is not there"  # (no line, so that is told)


def since_when(text):
    """A day, a day and a time (of this machine), or how long ago: 3d, 12h."""
    ago = re.fullmatch(r"(\d{1,5})([dh])", text)
    now = datetime.datetime.now().astimezone()
    try:
        if ago:
            return now - datetime.timedelta(**{"days" if ago[2] == "d" else "hours": int(ago[1])})
        return datetime.datetime.fromisoformat(text).astimezone()
    except (ValueError, OverflowError):
        raise Fault(f"{text!r} is no time: a day (2026-11-28), with a time (2026-11-28T09:00), or 3d, 12h") from None


class Command:
    """What a request asked for, by the text that the log has of it."""

    def __init__(self, text):
        self.text, self.asked = text, members_of(text)
        self.cmd, self.path = self.word("cmd"), self.word("path")
        self.paths = {*filter(None, map(self.word, ("path", "to")))}
        self.file, self.whose = self.file_of_all(), self.more() or "" if self.cmd == "CHOWN" else ""

    def word(self, member):
        """A member that is a text, or an empty one."""
        its = (self.asked or {}).get(member)
        return its if isinstance(its, str) else ""

    def file_of_all(self):
        """The large file that each of its paths is a part of. (What leaves a file is something by itself, and so is a
        list, which no line may hide.)"""
        files = {part and part[1] for part in map(PART.fullmatch, self.paths)}
        return files.pop() if len(files) == 1 and self.cmd in OF_A_FILE else None

    def is_about(self, top):
        """Whether it is of this path, of what is below it, or moves a folder above; or may be: a path that is not known
        can be any."""
        return not self.path or any(it == top or is_in(it, top) or self.cmd == "RENAME" and is_in(top, it)
                                    for it in self.paths)

    def words(self):
        more = self.more()
        return self.odd() if None in (self.cmd or None, self.path or None, more) else f"{self.cmd} {self.path}{more}"

    def more(self):
        """What a command says besides its path; None where it says something else."""
        texts = [*map(self.word, {"RENAME": ["to"], "CHOWN": ["owner", "group"]}.get(self.cmd, []))]
        if "" in texts:
            return None
        if self.cmd == "SETLIST":
            its = self.asked.get("entries")
            return f": {entries(its)}" if isinstance(its, list) and all(map(is_entry, its)) else None
        return f" {'->' if self.cmd == 'RENAME' else 'to'} {':'.join(texts)}" if texts else ""

    def odd(self):
        """Its beginning, without what only fills it."""
        cut = f" (cut, or no command: {len(self.text)} letters are kept)" if self.asked is None else ""
        return f"in an odd form{cut}: {' '.join(self.text.split())[:ODD_MOST] or 'blanks alone'}"


def is_in(path, folder):
    return path.startswith(f"{folder.rstrip('/')}/")


class Change:
    """A request that asked for a change, as the first line of it has it; `count` is how often it was sent. Many of them
    wait to be told, so of the text it has what is told, and a sum."""

    def __init__(self, line, is_wanted):
        its = json.loads(line.decode("utf-8", "replace"))  # (a text can be cut within a letter)
        command = Command(its["asked"])
        self.room, _, rest = its["slot"].partition("/")
        self.slot, self.number = rest.rsplit("/", 1)
        self.time, self.user, self.source = datetime.datetime.fromisoformat(its["time"]), its["user"], its["from"]
        self.sum = hashlib.sha256(command.text.encode(errors="surrogatepass")).digest()
        self.file, self.whose, self.cmd, self.words = command.file, command.whose, command.cmd, command.words()
        self.path, self.to, self.entries = command.path, command.word("to"), (command.more() or "").removeprefix(": ")
        self.count, self.parts, self.cmds, self.last = 1, 0, set(), self.time
        self.status, self.outcome = its["status"], outcome_of(its["status"], its["length"])
        self.is_wanted = is_wanted(self, command)

    def is_again(self, other):
        return (self.number, self.sum, self.user) == (other.number, other.sum, other.user)

    def again(self, other):
        """It was sent again. What the room did stands, whatever else was answered before or after; and what had no
        answer may have acted, whatever else was refused."""
        self.count += 1
        self.is_wanted |= other.is_wanted
        if other.tells() > self.tells():
            self.status, self.outcome = other.status, other.outcome

    def tells(self):
        """How much of what the room did: all; perhaps nothing; nothing."""
        return 1 if self.outcome == "no answer" else 2 * (self.status == "200")

    def also(self, other):
        """Another request of the same large file."""
        self.parts += 1
        self.cmds.add(other.cmd)
        self.is_wanted |= other.is_wanted
        self.outcome = self.outcome if self.outcome == other.outcome else "done in part"
        self.last = other.time

    def told(self):
        words = f"{'+'.join(sorted(self.cmds))} of the large file {self.file}{self.whose} ({self.parts} requests)" \
            if self.file else self.words
        again = f"  ({self.count} times)" if self.count > 1 else ""
        return "  ".join([self.time.isoformat(), self.user, self.source, self.outcome, words]) + again


def outcome_of(status, length):
    """By the length of the room's reply: its text is not in the log."""
    if status == "409":
        return "refused"
    if status != "200" or not length.isdecimal():
        return "no answer"
    return "done" if int(length) <= DONE_MOST else "refused"


def members_of(text):
    """Of a command; None of what is no object, as one that was cut."""
    try:
        found = json.loads(text)
    except (ValueError, RecursionError):
        return None
    return found if isinstance(found, dict) else None


class Told:
    """What came of a room's lines: each change once, with the requests of a large file as one, in the order in which
    they began. Of a log of any length WAITING changes wait at most, and so many slots are known: what is sent again
    after more of them, or belongs to a large file that began before them, is told by itself."""

    def __init__(self, tell, lists):
        self.tell, self.waiting, self.last, self.files = tell, collections.deque(), collections.OrderedDict(), {}
        self.lists = lists

    def take(self, change):
        file = change.user, change.file, change.whose
        before, whole = self.last.get(change.slot), self.files.get(file) if change.file else None
        if before and before.is_again(change):
            before.again(change)
            return
        self.last[change.slot] = change
        self.last.move_to_end(change.slot)
        if len(self.last) > WAITING:
            self.last.popitem(last=False)
        if whole and change.time - whole.last < APART:
            whole.also(change)
            return
        if change.file:
            change.also(change)
            self.files[file] = change
        self.waiting.append(change)
        if len(self.waiting) > WAITING:
            self.tell_first()

    def tell_first(self):
        change = self.waiting.popleft()
        file = change.user, change.file, change.whose
        if self.files.get(file) is change:
            del self.files[file]
        if self.last.get(change.slot) is change:
            del self.last[change.slot]
        if change.is_wanted:
            self.tell(change.told() + self.lists.before(change))
        self.lists.note(change)

    def end(self):
        while self.waiting:
            self.tell_first()


def first_time(places):
    """Of the first line that can be read, or none."""
    for line in lines_of(places, None):
        with contextlib.suppress(ValueError, KeyError, TypeError, AttributeError):
            return Change(line, lambda *_: False).time
    return None


def log(places, room, given, say, warn):
    """Those of a room, of one user, at or below a path, since a time, as wanted."""
    since = since_when(given.since) if given.since else None
    first = first_time(places) if since else None
    if since and (first is None or first > since):
        warn(f"the log here begins {first.isoformat()}: what was before is not known" if first else
             "the log here has nothing: what was done is not known")
    begin = since and begins(places, room, since)
    odd, seen, shown, lists = collections.Counter(), None, of_backups().shown, Lists(places, room, begin)
    told = Told(lambda text: say(shown(text)), lists)

    def is_wanted(change, command):
        return (since is None or change.time >= since) and given.user in (None, change.user) and (
            given.path is None or command.is_about(given.path))

    for line in lines_of(places, begin):
        try:
            change = Change(line, is_wanted)
        except (ValueError, KeyError, TypeError, AttributeError):
            odd[seen] += 1
            continue
        seen = change.time
        lists.begin = lists.begin or change.time
        if change.room == room:
            told.take(change)
    with lists.stack:
        told.end()
    if odd:
        raise Fault(f"{odd.total()} lines of the log cannot be read: {places_of(odd)}")


def places_of(odd):
    """After which lines so many stand that cannot be read."""
    told = [f"{count} {f'after {time.isoformat()}' if time else 'at the beginning'}" for time, count in odd.items()]
    return ", ".join(told[:MOST_PLACES]) + f", and {len(told) - MOST_PLACES} places more" * (len(told) > MOST_PLACES)
