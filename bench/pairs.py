"""The program and the anchor side by side: they get the same messages, and must give the same answers."""
import os
import subprocess
import sys

from anchored import Anchored
from served import Room


class Pair:
    """The program and the anchor, each with a room of its own, side by side. The number of turns says who is first."""
    env = None

    def __init__(self, folder, load, make, turns=0):
        self.load, self.turns, self.rooms = load, turns, {}
        self.answers = os.path.join(folder, "answers")
        for kind in (Room, Anchored):
            below = os.path.join(folder, kind.__name__)
            os.mkdir(below)
            self.rooms[kind] = make(kind, below)
            self.rooms[kind].env = self.env
            self.rooms[kind].start()

    def sent(self, messages):
        """Sends these to both: the microseconds of each message of the program, and those of the anchor."""
        stream = b"".join(b"%d\n" % len(it) + it for it in messages)
        took, answers = {}, {}
        self.turns += 1
        for kind in list(self.rooms)[::1 if self.turns % 2 else -1]:
            words = [self.load, str(self.rooms[kind].port), self.answers]
            told = subprocess.run(words, input=stream, stdout=subprocess.PIPE, check=True)
            took[kind] = [int(it) / 1000 for it in told.stdout.split()]
            with open(self.answers, "rb") as file:
                answers[kind] = file.read()
        if answers[Room] != answers[Anchored]:
            sys.exit(f"bench: the answers differ: {answers[Room][:300]} {answers[Anchored][:300]}")
        if any(it.count(b'"error"') for it in answers.values()):
            sys.exit(f"bench: refused: {answers[Room][:300]}")
        return took[Room], took[Anchored]

    def end(self):
        for room in self.rooms.values():
            room.kill()
