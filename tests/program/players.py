"""The scenes of crates/test_examples/data, and what plays one over sockets: a room in a file, a server, and one
connection after another."""
import glob
import os

import pytest
import scenes
from given import each
from served import HERE, PlayedRoom

EXAMPLES = os.path.join(HERE, "..", "crates", "test_examples")
PROVED = os.path.join(EXAMPLES, "out", "test_examples")  # the player that `rt ci` leaves
BAD_HTTP = b'{"code":40,"error":"BAD_HTTP"}'  # a message is malformed or cut short, and nothing follows it


def each_scene(is_chosen):
    """A case for each scene of which that is true, by file and name."""
    paths = sorted(glob.glob(os.path.join(EXAMPLES, "data", "*.txt")))
    found = [(os.path.basename(path)[:-4], it) for path in paths for it in scenes.read(path)]
    return each("scene", [(f"{file}: {it.name}", it) for file, it in found if is_chosen(it)])


def proved():
    """The proved player, or none is there."""
    if not os.access(PROVED, os.X_OK):
        pytest.fail(f"there is no {os.path.relpath(PROVED)}: `rt run` in crates/test_examples", pytrace=False)
    return PROVED


class Played(PlayedRoom):
    """A room over sockets."""

    def answer_to(self, message, is_last):
        """The next answer's bytes; what is there at the end of the connection."""
        line = self.connect()
        line.send(message)
        if is_last:
            line.end()
        got = line.answer()
        return got.whole if got else line.taken()

    def to_end(self):
        """What still comes where nothing more is sent."""
        if not self.open_line:
            return b""
        self.open_line.end()
        rest = self.open_line.to_end()
        self.hang_up()
        return rest

    def asked(self, step, numbers):
        for count in range(step.times):
            due = step.due(count)
            got = self.answer_to(step.message(count, numbers), due.endswith(BAD_HTTP))
            assert got == due, f"line {step.line}"
            if step.closes or b"\r\nconnection: close\r\n" in got:
                assert self.to_end() == b"", f"behind line {step.line}"

    def step(self, step, numbers):
        if isinstance(step, scenes.Request):
            self.asked(step, numbers)
        elif isinstance(step, scenes.Next):
            self.set_next(step.number)
        else:
            self.stop()
        if isinstance(step, scenes.Report):
            assert self.report(step.kind) == (0, step.due, b""), f"line {step.line}"

    def play(self, scene):
        """Each answer and report is the one that is due. At the end nothing more comes on the connection, and nothing
        at all on one on which nothing is sent."""
        numbers = scenes.Numbers()
        for step in scene.whole():
            self.step(step, numbers)
        rest = self.to_end()
        self.connect()
        assert rest + self.to_end() == b""
        self.stop()
