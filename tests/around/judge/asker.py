"""One of the clients that are judged: client/, over and over again, however often it is killed.

asker.py URL USER PASSWORD-FILE FOLDER: appends pieces that are all different, one after another and several at once,
reads, and puts files in pieces, with more or less patience. FOLDER keeps its session, and the count of the last piece.
One piece that was under way as it was killed is asked for again, as its user would.
"""
import base64
import contextlib
import os
import random
import sys

HERE = os.path.dirname(os.path.abspath(__file__))
sys.path.insert(0, os.path.join(HERE, "..", "..", "..", "client"))
sys.dont_write_bytecode = True
from room_client import Room, SessionLost, Settings, files
from room_client.faults import Fault
from room_client.slots import HARMLESS
from room_client.state import State

PIECES = 3000  # of a document
LARGE = 140_000


class Asker:
    def __init__(self, url, user, password_file, folder):
        how = {"url": url, "login": user, "password_file": password_file} if password_file else {
            "url": url, "room_user": user}
        self.settings = Settings(**how, state=os.path.join(folder, "session"), patience=20)
        self.user, self.at, self.dice = user, os.path.join(folder, "count"), random.Random()
        self.count = int(self.read(self.at) or "0")

    @staticmethod
    def read(path):
        with contextlib.suppress(FileNotFoundError), open(path, encoding="utf-8") as file:
            return file.read()

    def next(self):
        self.count += 1
        with open(self.at + ".new", "w", encoding="utf-8") as file:
            file.write(str(self.count))
        os.replace(self.at + ".new", self.at)
        return self.count

    def log(self, count):
        return f"/log-{self.user}-{count // PIECES}"

    def piece(self, count):
        return f"{self.user}{count}.".encode()

    def append(self, room):
        room.append(self.log(self.count), self.piece(self.count))
        self.next()

    def several(self, room):
        counts = [self.next() - 1 for _ in range(self.dice.randrange(2, 20))]
        room.ask_all([{"cmd": "APPEND", "data": base64.b64encode(self.piece(it)).decode(), "path": self.log(it)}
                      for it in counts])

    def step(self, room):
        draw = self.dice.random()
        if draw < 0.4:
            self.append(room)
        elif draw < 0.8:
            self.several(room)
        elif draw < 0.95:
            room.ask_all([{"cmd": "STAT", "path": self.log(self.count)}, HARMLESS,
                          {"cmd": "READ", "keep": False, "path": self.log(self.count)}])
        else:
            path = f"/large-{self.user}/{self.count}"
            if self.dice.random() < 0.5:
                files.put(room, path, self.dice.randbytes(20))
            files.put(room, path, self.dice.randbytes(LARGE))

    def begin_anew(self):
        """As `room session new`."""
        with contextlib.closing(State(self.settings.state_path, self.settings.url, self.user, 20)) as state:
            state.begin_anew()

    def play(self):
        while True:
            self.settings.patience = self.dice.choice([0, 1, 20])
            try:
                with Room(self.settings, lambda _: None) as room:
                    self.append(room)
                    for _ in range(self.dice.randrange(1, 30)):
                        self.step(room)
            except SessionLost:
                self.begin_anew()
                self.next()  # (whether the last one was done is not known: its user goes on)
            except Fault as fault:
                print(fault, file=sys.stderr, flush=True)


if __name__ == "__main__":
    Asker(*sys.argv[1:]).play()
