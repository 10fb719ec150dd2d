"""A room over its wire: each command is sent until it is answered, and acts once."""
import base64
import contextlib
import json
import sys
from collections.abc import Callable, Iterable, Sequence

from .faults import FBIG, Fault, Held, Refused, refused
from .line import Line
from .settings import Settings
from .slots import Crew, Pace, Slot, compact, told
from .state import SLOTS, State
from .words import is_behind, is_part, shown, whole_of

MOST_BYTES = 65536  # of a document
# Bytes of a reply: {"code":0,"size":65536} is the longest of what was done, and refusals are longer. (By that the
# gateway and fileroom-admin read the front's logs; front/fileroom.conf and service/fail2ban/made.conf have patterns.)
DONE_MOST = 24
SAME = "that was this very request, done once: give it again to do it a second time"
CHANGES = ("APPEND", "CHOWN", "CREATE", "MKDIR", "REMOVE", "RENAME", "SETLIST", "WRITE")


def say(text: str) -> None:
    print(f"room: {text}", file=sys.stderr, flush=True)


def unheard(_: dict) -> None:
    pass


def counted(commands: Iterable[dict]) -> Sequence[dict]:
    return commands if isinstance(commands, Sequence) else list(commands)


class Room:
    """Used with `with`. What was pending in the state file is finished first, and `say` hears of it. A request is on
    record before it is sent, and until its reply was told: until the next request, or the end of `with`."""

    line_kind, slot_kind, state_kind = Line, Slot, State  # (the gateway of dav/ has its own)

    def __init__(self, settings: Settings, say: Callable[[str], None] = say):
        self.settings, self.say = settings, say
        self.state: State | None = None
        self.finished: list[tuple[dict, dict]] = []  # what was pending, and its reply
        self.was_pending = False
        self.left: list[Callable[[], None]] = []  # what comes behind an answer
        self.slots: dict[int, Slot] = {}
        self.pace = Pace(is_free=settings.login is None)

    def __enter__(self) -> "Room":
        its = self.settings
        its.find_password()
        with contextlib.ExitStack() as opened:
            opened.callback(self._hang_up)
            state = self.state_kind(its.state_path, its.url, its.user, its.patience)
            self.state = opened.enter_context(contextlib.closing(state))
            self._begin()
            self.opened = opened.pop_all()
        return self

    def __exit__(self, kind, fault, _) -> None:
        """Where all that was answered has been told, it is no longer pending."""
        with self.opened:
            if fault is None or isinstance(fault, Fault):
                self.settle()
                for slot in self.slots.values():
                    if slot.is_answered:
                        self.state.told(slot.number)

    def _hang_up(self) -> None:
        for slot in self.slots.values():
            slot.line.close()

    def behind(self, does: Callable[[], None]) -> None:
        """Has it done once the user was told what is done already: at the end, or as the next one is begun."""
        self.left.append(does)

    def settle(self) -> None:
        while self.left:
            self.left.pop(0)()

    def slot(self, number: int = 0) -> Slot:
        if number not in self.slots:
            context = self.slots[0].line.context if 0 in self.slots else None
            line = self.line_kind(self.settings, context)
            self.slots[number] = self.slot_kind(number, line, self.settings, self.state, self.pace, self.say)
        return self.slots[number]

    @property
    def line(self) -> Line:
        return self.slot().line

    def _begin(self) -> None:
        pending = self.state.pending()
        if self.state.session.is_open and self.state.session.slots < SLOTS and not pending:
            self.close_session()  # (one of before, with one slot)
        if not self.state.session.is_open:
            self.state.save(self.state.session)
            self._open()
        self.was_pending = bool(pending)
        parts = {}
        for number in pending:
            slot, command = self.slot(number), json.loads(self.state.kept[number].pending)
            try:
                if is_part(command):
                    parts.setdefault(whole_of(command), []).append((command, slot.settle_part(command)))
                else:
                    self._finish(slot, command)
            except Held:
                self.say(f"{told(command)}: {slot.go_on_held(command)}")
        for whole, found in parts.items():
            self._tell_parts(whole, found)

    def _open(self) -> None:
        name, slot = self.state.session.name, self.slot()
        slot.may_be_sent = False
        body = compact({"slots": self.state.session.slots})
        slot.need_done(slot.until_answered("POST", f"/v1/sessions/{name}", body))
        self.state.opened()

    def _finish(self, slot: Slot, command: dict) -> None:
        reply = slot.finish(command)
        self.finished.append((command, reply))
        if command["cmd"] in CHANGES:
            came = "done" if reply["code"] == 0 else str(refused(reply, command))
            self.say(f"finished what was pending: {told(command)}: {came}")

    def _tell_parts(self, whole: str, found: list[tuple[dict, dict | None]]) -> None:
        """Of what many requests do together, only those are done that were done when it was stopped."""
        if any(command["cmd"] in CHANGES and not is_behind(command) for command, _ in found):
            self.say(f"what was under way at {shown(whole)} was stopped: give it again")

    def ask(self, command: dict, is_step: bool = False) -> dict:
        """The reply to a command, or a fault. Where the first changing one is what was pending, it is that one; it
        may be a step of something larger."""
        if command["cmd"] in CHANGES:
            was, self.finished = self.finished, []
            done = next((reply for its, reply in was if its == command and reply["code"] == 0), None)
            if done:
                if not is_step:
                    self.say(SAME)
                return done
        reply = self.slot().ask(command)
        if reply["code"] != 0:
            raise Refused(reply, command)
        return reply

    def was_done(self, fits: Callable[[dict], bool]) -> dict | None:
        """The request that was pending as the client began and was done, where it is as wanted."""
        found = next((its for its, reply in self.finished if reply["code"] == 0 and fits(its)), None)
        if found:
            self.finished = []
            self.say(SAME)
        return found

    def ask_all(self, commands: Iterable[dict], heard: Callable[[dict], None] = unheard,
                keeps: Callable[[int, dict], object] = lambda _, reply: reply) -> list:
        """The replies to some commands, refusals too, of which none waits for another: over several slots at once. Or
        what `keeps` makes of each, which is told its place."""
        commands = counted(commands)
        if any(it["cmd"] in CHANGES for it in commands):
            self.finished = []
        # (a room's port serves one connection after another: a second one would wait for the end of the first)
        width = 1 if self.settings.login is None else min(SLOTS, self.state.session.slots)
        slots = [self.slot(number) for number in range(min(width, len(commands)))]
        crew = Crew(commands, heard, keeps)
        if len(slots) > 1:
            return crew.run(slots)
        for slot in slots:
            crew.work(slot)
        if crew.faults:
            raise crew.faults[0]
        return crew.replies

    def check(self, question: dict) -> dict:
        """The answer to a question about a list, which needs no session."""
        slot = self.slot()
        return slot.need_done(slot.until_answered("POST", "/v1/check", compact(question)))

    def file_of_front(self, end: str) -> bytes | None:
        """A file beside the room's address, by a front; None where there is none."""
        return None if self.settings.login is None else self.line.fetch(end, self.settings.patience)

    # The commands, as docs/WIRE.md has them.

    def stat(self, path: str) -> dict:
        return self.ask({"cmd": "STAT", "path": path})

    def children(self, path: str) -> dict[str, str]:
        """The kind of each name in a folder."""
        return dict(self.ask({"cmd": "LIST", "path": path})["names"])

    def mkdir(self, path: str) -> dict:
        return self.ask({"cmd": "MKDIR", "path": path})

    def read(self, path: str) -> bytes:
        return base64.b64decode(self.ask({"cmd": "READ", "path": path})["data"])

    def _with_data(self, cmd: str, path: str, data: bytes) -> dict:
        command = {"cmd": cmd, "path": path}
        if len(data) > MOST_BYTES:
            raise Refused(FBIG, command)  # (the room would say so)
        return self.ask(command | {"data": base64.b64encode(data).decode()})

    def create(self, path: str, data: bytes) -> dict:
        return self._with_data("CREATE", path, data)

    def write(self, path: str, data: bytes) -> dict:
        return self._with_data("WRITE", path, data)

    def append(self, path: str, data: bytes) -> dict:
        return self._with_data("APPEND", path, data)

    def put(self, path: str, data: bytes) -> dict:
        """Makes the document, or replaces its bytes where it is there."""
        try:
            return self.create(path, data)
        except Refused as fault:
            if fault.reply["error"] != "EXIST":
                raise
        return self.write(path, data)

    def remove(self, path: str) -> dict:
        return self.ask({"cmd": "REMOVE", "path": path})

    def rename(self, path: str, to: str) -> dict:
        return self.ask({"cmd": "RENAME", "path": path, "to": to})

    def get_list(self, path: str) -> dict:
        return self.ask({"cmd": "GETLIST", "path": path})

    def set_list(self, path: str, aclflag: int, entries: list[dict]) -> dict:
        return self.ask({"aclflag": aclflag, "cmd": "SETLIST", "entries": entries, "path": path})

    def chown(self, path: str, owner: str, group: str) -> dict:
        return self.ask({"cmd": "CHOWN", "group": group, "owner": owner, "path": path})

    def access(self, path: str, mask: int) -> int:
        return self.ask({"cmd": "ACCESS", "mask": mask, "path": path})["allowed"]

    def close_session(self) -> None:
        """Ends the session for good; the next command begins another."""
        slot = self.slot()
        slot.is_answered = False
        slot.need_done(slot.until_answered("DELETE", f"/v1/sessions/{self.state.session.name}", ""))
        self.state.begin_anew()
