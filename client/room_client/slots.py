"""The slots of a session: each sends one request after another over a connection of its own, until it is answered."""
import contextlib
import json
import random
import string
import threading
import time
from collections.abc import Callable, Sequence

from .faults import BadWords, Fault, Held, NoAnswer, Refused, SessionLost, refused
from .line import NO_SUCH_NAME, Answer, Line, Lost, NotSent
from .settings import Settings
from .state import State
from .words import shown

FIRST_PAUSE, LONGEST_PAUSE = 0.05, 5.0  # seconds between two attempts
WORD_AFTER = 2.0  # seconds without an answer until the user is told why
LONGEST_ATTEMPT = 90.0  # seconds; a room may be held for a minute by somebody else
RATE, BURST = 380.0, 60.0  # requests a second: a front takes 400 of a login, and a page may be open beside
FALSE_RETRY, UNCACHED, BAD_REQUEST = 23, 25, 43
HARMLESS = {"cmd": "STAT", "path": "/"}
BASE64 = f"{string.ascii_letters}{string.digits}+/=".encode()
FRONT = {
    401: "the login or its password is wrong: correct --login or the password file",
    403: "the front does not let you in, or you began too many sessions: wait a minute, or ask who runs it",
    404: "the front knows no room there: correct the URL",
    413: "that is larger than the front takes: split it",
    429: "you are held: you asked this room for more in a day than your bound, or who runs it holds you. Read on, and "
         "change things tomorrow, or ask them to release you",
}


def later(status: int) -> str:
    return f"it answered {status}"


BUSY = "the room is being started again, or is busy"
WAITS = {
    later(429): "the front lets no more of yours through for now",
    NO_SUCH_NAME: "is the URL right, and this machine in the network?",
}


def compact(command: dict) -> str:
    """(Base64 has nothing to escape: looking for that takes as long as all else of a piece.)"""
    data = command.get("data")
    if isinstance(data, str) and data.isascii() and not data.encode().translate(None, BASE64):
        return written(command | {"data": ""}).replace('"data":""', f'"data":"{data}"', 1)
    return written(command)


def written(command: dict) -> str:
    return json.dumps(command, ensure_ascii=False, separators=(",", ":"), sort_keys=True)


def told(command: dict) -> str:
    """A command in a few words."""
    names = [shown(command[it]) for it in ("path", "to") if it in command]
    return " ".join([command["cmd"], *names])


class Pace:
    """What the slots share: together they keep below what a front takes, and say once that they wait."""

    def __init__(self, is_free: bool, rate: float = RATE, burst: float = BURST):
        self.lock, self.is_free, self.rate, self.burst = threading.Lock(), is_free, rate, burst
        self.left, self.at = burst, time.monotonic()
        self.has_told = False

    def is_first_word(self) -> bool:
        """Whether none of the slots has told yet why no answer comes."""
        with self.lock:
            before, self.has_told = self.has_told, True
            return not before

    def wait(self) -> None:
        if self.is_free:
            return
        with self.lock:
            now = time.monotonic()
            self.left, self.at = min(self.left + (now - self.at) * self.rate, self.burst) - 1, now
            pause = -self.left / self.rate
        if pause > 0:
            self.rest(pause)

    def rest(self, seconds: float) -> None:
        time.sleep(seconds)


class Slot:
    """One slot. A request is on record before it is sent, and until its reply was told: until the next request."""

    def __init__(self, number: int, line: Line, settings: Settings, state: State, pace: Pace,
                 say: Callable[[str], None]):
        self.number, self.line, self.settings = number, line, settings
        self.state, self.pace, self.say = state, pace, say
        self.is_answered = self.may_be_sent = self.is_stopped = False
        self.left: Fault | None = None  # why it is not known whether the number on record was used: nothing follows it

    def ask(self, command: dict) -> dict:
        """The room's reply, a refusal too. One that was not to be kept, and is lost, is asked for anew."""
        if self.left:
            raise self.left
        request = compact(command)
        try:
            request.encode()
        except UnicodeEncodeError:
            raise BadWords("a name is no UTF-8") from None
        while True:
            self.is_answered = self.may_be_sent = False
            self.state.record(request, self.number)
            reply = self.send_pending(command)
            if reply["code"] != UNCACHED:
                return reply

    def send_pending(self, command: dict) -> dict:
        """Sends the request on record. Where it surely was not done, it is on record no longer."""
        try:
            answer = self._send(self.state.kept[self.number].pending)
            if not (is_refused_as(answer, UNCACHED) and command.get("keep") is False):
                self.need_done(answer, command)
        except NoAnswer as fault:
            raise self._leave(type(fault)(f"{fault}; {self._settle()}")) from None
        except Fault as fault:
            self._settle()
            raise self._leave(fault)
        except BaseException:  # (stopped at the keyboard)
            self.say(f"{told(command)}: {self._settle()}")
            raise
        self.is_answered = True
        return answer.reply

    def finish(self, command: dict) -> dict:
        """The reply to what was pending as the client began."""
        self.may_be_sent = True
        return self.send_pending(command)

    def settle_part(self, command: dict) -> dict | None:
        """Of what was pending, whether it had been done: its reply, or None where it was not, and never will be."""
        return self.finish(command) if self.was_taken(command) else None

    def was_taken(self, command: dict) -> bool:
        """Whether the room had what was pending. The same number with a harmless request tells that, and is used up by
        it."""
        answer = self._send(compact(HARMLESS))
        if is_refused_as(answer, FALSE_RETRY):
            return True
        self.need_done(answer, command)
        self.state.told(self.number)
        return False

    def go_on_held(self, command: dict) -> str:
        """What came of what was pending, as far as who is held can find out. (Nothing but a look is let through.)"""
        self.left = None
        if not self.was_taken(command):
            return "not done, since you are held: give it again later"
        self.state.told(self.number)
        return "the room had it, and does not tell whether it was done or refused while you are held: look"

    def _send(self, request: str) -> Answer:
        number = self.state.kept[self.number].number
        target = f"/v1/sessions/{self.state.session.name}/slots/{self.number}/{number}"
        return self.until_answered("POST", target, request)

    def _settle(self) -> str:
        """What holds of a request that got no reply, in words."""
        if self.may_be_sent:
            return ("whether it was done is not known: it is kept, and sent again before your next command, "
                    "or by: room session finish")
        self.state.withdraw(self.number)
        return "nothing was done, and nothing is kept"

    def _leave(self, fault: Fault) -> Fault:
        if self.may_be_sent or isinstance(fault, SessionLost):
            self.left = fault
        return fault

    def need_done(self, answer: Answer, command: dict | None = None) -> dict:
        if answer.is_done:
            return answer.reply
        if answer.reply is not None:
            raise refused(answer.reply, command)
        what = FRONT.get(answer.status, "what answers there is no room: correct the URL")
        raise Held(what) if answer.is_held else NoAnswer(f"{self.whom()} answered {answer.status}: {what}")

    def whom(self) -> str:
        """Who is asked."""
        return self.settings.url

    def until_answered(self, method: str, target: str, body: str) -> Answer:
        """Sends until something else than 'later' is answered, in the time that is given. Notes in `may_be_sent`
        whether an attempt went out of which it is not known that nothing came of it."""
        begin, pause = time.monotonic(), FIRST_PAUSE
        end = begin + self.settings.patience
        while True:
            left = max(end - time.monotonic(), 1.0)
            self.pace.wait()
            answer = self._attempt(method, target, body.encode(), min(left, LONGEST_ATTEMPT))
            if isinstance(answer, Answer):
                return answer
            if self.is_stopped:
                raise NoAnswer("stopped")
            if time.monotonic() + pause >= end:
                seconds = f"{self.settings.patience:g} s"
                raise NoAnswer(f"no answer from {self.whom()} in {seconds} ({answer}; is the room served?)")
            self.line.close()
            if time.monotonic() - begin > WORD_AFTER and self.pace.is_first_word():
                self.say(f"no answer yet ({answer}): {WAITS.get(answer, BUSY)}; it is sent again")
            self.pace.rest(pause * random.uniform(0.5, 1.0))
            pause = min(2 * pause, LONGEST_PAUSE)

    def _attempt(self, method: str, target: str, body: bytes, seconds: float) -> Answer | str:
        """An answer that settles it, or why there is none."""
        before = self.may_be_sent
        try:
            self.line.open(seconds)
            self.may_be_sent = True
            answer = self.line.ask(method, target, body)
        except (NotSent, Lost) as fault:
            return str(fault)
        if answer.is_later:
            return later(answer.status)
        if answer.is_refused:
            self.may_be_sent = before
        return answer

    def stop(self) -> None:
        """Ends a wait for an answer, from another thread."""
        self.is_stopped = True
        self.line.end()


def is_refused_as(answer: Answer, code: int) -> bool:
    return answer.reply is not None and answer.reply["code"] == code


def answered(slot: Slot, command: dict) -> dict:
    """The reply, also where the room takes no such words: of several requests the others are done."""
    try:
        return slot.ask(command)
    except Refused as fault:
        if fault.reply["code"] != BAD_REQUEST:
            raise
        return fault.reply


class Crew:
    """Some requests over several slots at once: each slot takes the next one that nobody took."""

    def __init__(self, commands: Sequence[dict], heard: Callable[[dict], None],
                 keeps: Callable[[int, dict], object] = lambda _, reply: reply):
        self.left, self.heard, self.keeps = iter(enumerate(commands)), heard, keeps
        self.replies: list = [None] * len(commands)
        self.faults: list[BaseException] = []
        self.lock = threading.Lock()

    def next(self) -> tuple[int, dict] | None:
        with self.lock:
            return None if self.faults else next(self.left, None)

    def work(self, slot: Slot) -> None:
        try:
            while (taken := self.next()) is not None:
                reply = answered(slot, taken[1])
                kept = self.keeps(taken[0], reply)
                with self.lock:
                    self.replies[taken[0]] = kept
                    self.heard(reply)
        except BaseException as fault:
            self.faults.append(fault)

    def run(self, slots: Sequence[Slot]) -> list:
        """What is kept of the replies, in the order of the requests, or the first fault, once no request is under way.
        """
        for slot in slots:
            slot.is_stopped = False
        threads = [threading.Thread(target=self.work, args=(slot,)) for slot in slots]
        try:
            for thread in threads:
                thread.start()
            for thread in threads:
                thread.join()
        except BaseException as fault:  # (stopped at the keyboard, perhaps before all have begun)
            self.faults.append(fault)
            for slot in slots:
                slot.stop()
            for thread in threads:
                with contextlib.suppress(RuntimeError):
                    thread.join()
            slots[0].say("stopped: of what was under way it is not known whether it was done; your next command finds "
                         "that out first")
            raise
        if self.faults:
            raise self.faults[0]
        return self.replies
