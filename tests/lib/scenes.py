"""Reads the examples of crates/test_examples/data: scenes of requests with the answers that are due.

The grammar is told in crates/test_examples/README.md; the proved player reads it too, and refuses all else. What is
read here are bytes: a request's whole message, an answer's whole bytes. A line that cannot be read ends the reading
with a Fault, which names file and line.
"""
import os
import re
from collections.abc import Callable
from dataclasses import dataclass

from served import message, whole

WAYS = {"memory", "tables", "run", "run_tables", "stream", "bytes", "reopened", "tripped", "tripped_tables", "lost",
        "sockets"}
SESSIONS = {"S": "0123456789abcdef0123456789abcdef", "T": "f" * 32}
SCENE = re.compile(r"== ([a-z0-9_]+)(?: after ([a-z0-9_]+))?(?: not ([a-z_]+(?: [a-z_]+)*))?$")
DUE = re.compile(r"  (?:(\d{3}) )?(close )?([^\s|].*)$")
PUTS = re.compile(r"  puts (?:[0-9]+|(?:/|%\{)\S*(?: \* \S+)?(?: /\S*)*)$")
TIMES = re.compile(r"(?:([1-9][0-9]*) times )?(.*)$")


class Fault(Exception):
    """A line that cannot be read."""


@dataclass(eq=False)
class Request:
    """A message that is sent `times` times, and the answer that is due to each: `message` gives the bytes for a count
    and the numbers sent so far, `due` those of the answer for a count."""
    line: int
    times: int
    message: Callable
    due: Callable
    closes: bool


@dataclass(eq=False)
class Report:
    line: int
    kind: str
    due: bytes
    times = 1


@dataclass(eq=False)
class Reopen:
    line: int
    times = 0


@dataclass(eq=False)
class Next:
    """The room's next object number is set by hand."""
    line: int
    number: int
    times = 0


class Scene:
    def __init__(self, name, after, left_out):
        self.name, self.after, self.left_out, self.steps = name, after, left_out, []

    def whole(self):
        """All steps that are played, those of the scenes that it comes after first."""
        return (self.after.whole() if self.after else []) + self.steps

    def is_played(self, way):
        """Whether the scene and all that it comes after are played in this way."""
        return way not in self.left_out and (self.after is None or self.after.is_played(way))


class Numbers:
    """The number last sent in each slot of each session."""

    def __init__(self):
        self.last = {}

    def named(self, session, slot, number):
        """The number that is meant, and the text of it."""
        place = (session, slot)
        if number == "next":
            number = str(self.last.get(place, 0) + 1)
        if number.isdecimal():
            self.last[place] = int(number)
        return number


def need(fact, why):
    if not fact:
        raise ValueError(why)


class Reader:
    def __init__(self, path):
        self.path, self.at, self.lets, self.scenes = path, 0, {}, {}

    def take(self):
        """The next line, or None; faults are told of the line taken last."""
        line = self.ahead()
        self.at += line is not None
        return line

    def ahead(self):
        return self.lines[self.at] if self.at < len(self.lines) else None

    def one(self, inside, count):
        """What stands for %{inside}."""
        if repeated := re.fullmatch(r"([0-9]+) \* (.*)", inside):
            return repeated[2].encode() * int(repeated[1])
        if inside.startswith("hex "):
            return bytes.fromhex(inside[4:])
        return str(count).encode() if inside == "n" and count is not None else self.lets[inside]

    def expanded(self, text, count=None):
        pieces = re.split(r"%\{([^}]*)\}", text)
        return b"".join(self.one(it, count) if at % 2 else it.encode() for at, it in enumerate(pieces))

    def read(self):
        """The scenes of the file."""
        with open(self.path, encoding="utf-8", newline="\n") as file:
            self.lines = file.read().split("\n")
        need(self.lines.pop() == "", "the last line has no end")
        scene = None
        while (line := self.take()) is not None:
            if line == "" or line.startswith("#"):
                continue
            if line.startswith("let "):
                name, text = line.removeprefix("let ").split(" = ", 1)
                self.lets[name] = self.expanded(text)
            elif line.startswith("=="):
                scene = self.scene(*SCENE.match(line).groups(default=""))
            else:
                scene.steps.append(self.step(line))
        need(self.scenes, "no scene")
        return [*self.scenes.values()]

    def scene(self, name, other, ways):
        need(name not in self.scenes, f"{name} stands twice")
        need({*ways.split()} <= WAYS, f"a way that is none: {ways}")
        self.scenes[name] = Scene(name, self.scenes[other] if other else None, {*ways.split()})
        return self.scenes[name]

    def step(self, line):
        at = self.at
        if line == "reopen":
            return Reopen(at)
        if line in ("report access", "report lists"):
            return Report(at, line.split()[1], b"".join(self.expanded(it) + b"\n" for it in self.bars()))
        if number := re.fullmatch(r"next ([0-9]+)", line):
            return Next(at, int(number[1]))
        need(not line.startswith("  "), "an answer, or a line of a message, stands alone")
        times, text = TIMES.match(line).groups()
        if text == "send":
            body = self.counted("\r\n".join(self.bars()), times)
            asked = lambda count, _: body(count)
        elif text.startswith("check "):
            body = self.counted(text[6:], times)
            asked = lambda count, _: message(None, "POST", "/v1/check", body(count))
        else:
            asked = self.in_session(text, times)
            self.puts()
        return Request(at, int(times or 1), asked, *self.due(times))

    def bars(self):
        """The texts of the lines  | TEXT  that follow."""
        texts = []
        while (self.ahead() or "").startswith("  |"):
            texts.append(self.take()[3:].removeprefix(" "))
        need(texts, "a report without its lines, or a message")
        return texts

    def counted(self, text, times):
        """The bytes of a text for each count; a fault is found now."""
        if times and "%{n}" in text:
            self.expanded(text, 0)
            return lambda count: self.expanded(text, count)
        once = self.expanded(text)
        return lambda count: once

    def in_session(self, text, times):
        user, session, what, *text = text.split(" ", 3)
        base, body = f"/v1/sessions/{SESSIONS.get(session, session)}", self.counted("".join(text), times)
        if what in ("open", "close"):
            method = "POST" if what == "open" else "DELETE"
            return lambda count, _: message(user, method, base, body(count))
        slot, number = what.split("/")
        return lambda count, numbers: message(
            user, "POST", f"{base}/slots/{slot}/{numbers.named(session, slot, number)}", body(count))

    def puts(self):
        """Passes a line that tells whose entries a command puts, which the proved player compares."""
        if (self.ahead() or "").startswith("  puts "):
            need(PUTS.match(self.take()), "no count or paths behind puts")

    def due(self, times):
        """The answer's bytes of a count, and whether the connection is over behind it."""
        status, closes, text = DUE.match(self.take()).groups()
        body = self.counted(text, times)
        return lambda count: whole(body(count), int(status or 200), bool(closes)), bool(closes)


def read(path):
    """The scenes of a file, in their order."""
    reader = Reader(path)
    try:
        return reader.read()
    except (OSError, ValueError, LookupError, AttributeError, TypeError) as fault:
        raise Fault(f"{os.path.basename(path)}:{reader.at}: {fault!r}") from fault
