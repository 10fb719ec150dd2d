"""A room is asked at its socket, which takes the name of any user from root. What answers there may be no room:
somebody else's process may have taken it over."""
import base64
import json
import secrets
import time

from room_client.faults import ACCESS
from room_client.line import Answer, Line, Lost, NotSent, TooLong
from room_client.settings import Settings

from .owned import of_backups
from .places import Fault
from .words import is_entry

WAIT = 20  # seconds that a room may take for a request, or to start
IN_ALL = 300  # and for all that it is asked here, while no other change can happen; the next call goes on
TOLD = 200  # letters of what the room says
NOENT = 1


def is_text(it):
    return isinstance(it, str)


def is_data(it):
    try:
        return base64.b64decode(it) is not None
    except (TypeError, ValueError):
        return False


def are_names(it):
    return isinstance(it, list) and all(
        isinstance(pair, list) and len(pair) == 2 and all(map(is_text, pair)) for pair in it)


def are_entries(it):
    return isinstance(it, list) and all(map(is_entry, it))


READ_HERE = {  # of the answer to what was done, by the command (docs/WIRE.md)
    "STAT": {"owner": is_text, "group": is_text, "kind": is_text}, "LIST": {"names": are_names},
    "GETLIST": {"aclflag": lambda it: type(it) is int, "entries": are_entries}, "READ": {"data": is_data}}


def is_reply(it, cmd):
    """Whether it has what is read of it here."""
    if it is None or type(it["code"]) is not int:
        return False
    if it["code"]:
        return is_text(it.get("error", "")) and is_text(it.get("path", ""))
    return all(fits(it.get(name)) for name, fits in READ_HERE.get(cmd, {}).items())


def shown(text):
    return of_backups().shown(text[:TOLD])


def line_to(path, user=""):
    return Line(Settings(url="http://localhost", room_user=user), path=path)


def answers(path):
    """Whether a room answers at its socket: that there is no such way, say."""
    line = line_to(path)
    try:
        line.open(5)
        return bool(line.ask("GET", "/", b"").status)
    except (Lost, NotSent):
        return False
    finally:
        line.close()


class Patience:
    """Until when what answers may take its time, which all sessions share."""

    def __init__(self, seconds=None):
        self.seconds = seconds or IN_ALL
        self.end = time.monotonic() + self.seconds

    def more(self):
        self.end = max(self.end, time.monotonic() + WAIT)

    def of_one(self):
        now = time.monotonic()
        if now >= self.end:
            raise Fault(f"the room took longer than {self.seconds} seconds in all")
        return min(self.end, now + WAIT)


class Session:
    """A user's, of one slot: a request is sent until it is answered, and acts once."""

    def __init__(self, path, user, patience, name=None, number=0):
        self.path, self.user, self.patience, self.number = path, user, patience, number
        self.line, self.target = line_to(path, user), f"/v1/sessions/{name or secrets.token_hex(16)}"
        self.opened = self.send("POST", self.target, {"slots": 1})

    def send(self, method, target, body=None):
        end, cmd, text = self.patience.of_one(), (body or {}).get("cmd"), json.dumps(body).encode() if body else b""
        while (left := end - time.monotonic()) > 0:
            answer = self.once(method, target, text, left)
            if answer and answer.status != 503:
                return self.read(answer.reply, cmd)
            time.sleep(0.1)
        self.patience.of_one()  # (or all time is over)
        raise Fault(f"the room does not answer at {self.path}")

    def once(self, method, target, text, seconds):
        """An answer, if there is one. (The room serves another connection between two requests.)"""
        try:
            self.line.open(seconds)
            return self.line.ask(method, target, text)
        except TooLong:
            return Answer(200, None)
        except (Lost, NotSent, ValueError):
            return None
        finally:
            self.line.close()

    def read(self, reply, cmd):
        if not is_reply(reply, cmd):
            raise Fault(f"what answers at {self.path} answers {cmd or 'a session'} in another form than a room does")
        return reply

    def ask(self, cmd, path, **more):
        if self.opened["code"]:
            return self.opened
        self.number += 1
        return self.send("POST", f"{self.target}/slots/0/{self.number}", {"cmd": cmd, "path": path, **more})

    def need(self, cmd, path, *but, **more):
        """The reply, where it is none of a refusal, or one of these."""
        reply = self.ask(cmd, path, **more)
        if reply["code"] and reply["code"] not in but:
            raise Fault(f"{self.user} is refused {cmd} {path}: {shown(reply.get('error', ''))} ({reply['code']})"
                        + (f" at {shown(reply['path'])}" if "path" in reply else ""))
        return reply

    def end(self):
        if not self.opened["code"]:
            self.send("DELETE", self.target)
