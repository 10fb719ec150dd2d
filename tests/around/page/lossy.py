"""What stands between browser and front: it passes all on, and loses answers when it is told to."""
import socket
import threading

from between import Between
from browser import ANSWER


class Lossy(Between):
    """`lose(word, count)`: the next so many requests whose body has that word are passed on, and their answers lost;
    without `passes` the requests are lost. `lose("")` ends it.
    `hold(words)`: requests whose body has all these words wait until `go_on()`; `held` tells whether one does.
    `hears` is called with each body first. `calm()` ends all of it, and forgets what was sent."""

    def __init__(self, front):
        self.front, self.going = front, threading.Event()
        self.calm()
        listener = socket.create_server(("127.0.0.1", 0), backlog=256)
        self.port = listener.getsockname()[1]
        super().__init__(listener, front)

    def calm(self):
        self.bodies, self.held, self.hears = [], False, None
        self.lose("")
        self.go_on()

    def fate(self, message):
        body = message.partition(b"\r\n\r\n")[2]
        self.bodies.append(body)
        if self.hears:
            self.hears(body)
        if self.wanted and all(it in body for it in self.wanted):
            self.held = True
            self.going.wait(ANSWER)
        is_lost = self.left > 0 and self.word in body
        self.left -= is_lost
        return ("answer" if self.passes else "request") if is_lost else "none"

    def lose(self, word, count=1, passes=True):
        self.word, self.left, self.passes = word.encode(), count if word else 0, passes

    def hold(self, *words):
        self.held = False
        self.going.clear()
        self.wanted = [it.encode() for it in words]

    def go_on(self):
        self.wanted = []
        self.going.set()

    def times(self, word):
        """How often a request with that word was sent."""
        return sum(word.encode() in it for it in self.bodies)
