"""What more than one script asks of a room."""
import base64
import random
import sys

from served import SID, Room, message, session, slot, sqlite

# The part of the anchor's speed, by instructions, that a request was counted to have at best: its statements, its
# commit's pages and its message, each apart. (A program that remembers what these read may come above it.)
FLOORS = {"MKDIR": 0.60, "CREATE of 1 KiB": 0.54, "APPEND of 64 bytes": 0.56, "STAT": 0.67, "STAT, asked before": 0.97,
          "SETLIST": 0.67}

KIB, LARGE, PIECE = (base64.b64encode(bytes(count)).decode() for count in (1024, 65536, 48))
NO_ROUTE = message(None, "POST", "/v2")


def bytes_of(count, seed):
    """So many bytes of a document's own, in base64."""
    return base64.b64encode(random.Random(seed).randbytes(count)).decode()


def command(cmd, path, size=0):
    """A command, with so many bytes where there are any. Its members stand as in its text, so that a repeat of it has
    the bytes that the slot keeps."""
    return {"cmd": cmd, **({"data": bytes_of(size, path)} if size else {}), "path": path}


def floor(name):
    """The cell of a request's floor."""
    return f"{FLOORS[name]:.2f}" if name in FLOORS else "-"


class Numbered:
    """The messages of one slot, which begin with that of its session."""

    def __init__(self, user="ann", sid=SID, number=0):
        self.user, self.sid, self.number, self.last = user, sid, number, session(1, sid, user)

    def again(self, body):
        """A message with the number of the last one."""
        return slot(0, self.number, body, self.user, self.sid)

    def message(self, body):
        """The next message, or where the body is None the last one once more."""
        if body is not None:
            self.number += 1
            self.last = self.again(body)
        return self.last


class Slot(Numbered):
    """The requests of one slot over one connection."""

    def __init__(self, line, user="ann", sid=SID, number=0):
        super().__init__(user, sid, number)
        self.line = line
        self.must(self.last)

    def must(self, data):
        answer = self.line.ask(data)
        if answer is None or answer.status != 200 or b'"error"' in answer.body:
            sys.exit(f"bench: refused: {answer}")

    def command(self, body):
        """Sends this command, or where it is None the message before once more."""
        self.must(self.message(body))


def made(folder, commands):
    """A room in this folder in which the program has done these commands, and the number of the last."""
    room = Room(folder).start()
    asked = Slot(room.line())
    for it in commands:
        asked.command(it)
    room.kill()
    sqlite(room.db, "PRAGMA wal_checkpoint(TRUNCATE);")  # (all is in the file now, and nothing in its log)
    return room, asked.number
