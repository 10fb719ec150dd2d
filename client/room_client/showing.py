"""How a command shows what came of it."""
import json
import sys
from collections.abc import Sequence

from .faults import Fault, SessionLost
from .room import say


class Told(Fault):
    """What went wrong was told already; its exit status is left."""

    def __init__(self, status: int):
        super().__init__("")
        self.status = status


def show(asked, reply: dict | list, text: str) -> None:
    if asked.json or text:
        # (a name may have letters that a terminal takes for commands)
        print(json.dumps(reply, ensure_ascii=sys.stdout.isatty()) if asked.json else text, flush=True)


def write_bytes(data: bytes) -> None:
    sys.stdout.flush()
    sys.stdout.buffer.write(data)
    sys.stdout.buffer.flush()


class Faults:
    """Of several things: what fails is told, the others are done, and the first fault's status is the whole's."""

    def __init__(self, count: int):
        self.count, self.first = count, None

    def take(self, fault: Fault) -> None:
        if self.count == 1 or isinstance(fault, SessionLost):
            raise fault
        if not isinstance(fault, Told):
            say(str(fault))
        self.first = self.first or fault

    def end(self, told: Sequence[Fault] = ()) -> None:
        """Also for those that were told before."""
        first = next(filter(None, [self.first, *told]), None)
        if first:
            raise Told(first.status)
