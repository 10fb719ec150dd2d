"""What stands between a front, or a client, and a room's port: it records each request, and loses, delays and doubles
some. What it records is judged by rule.py."""
import contextlib
import json
import random
import re
import socket
import threading
import time
from collections import Counter, defaultdict

from between import Between, read_message

FATES = ("request", "answer", "cut", "delay", "held", "twice")
DELAY = b'{"code":30,"error":"DELAY"}'
HELD = 0.05, 0.8  # seconds of what is held up
MOMENT = 0.3
LANE = re.compile(r"/v1/sessions/[0-9a-f]{32}/slots/[0-9]+/")


def user_of(message):
    user = re.search(rb"(?i)\r\nroom-user: *([^\r\n]*)", message.partition(b"\r\n\r\n")[0])
    return user[1].decode() if user else ""


def split(message):
    """The method, the target and the body."""
    head, _, body = message.partition(b"\r\n\r\n")
    method, target, _ = head.partition(b"\r\n")[0].decode().split(" ", 2)
    return method, target, body.decode()


def answer_of(answer):
    head, _, body = answer.partition(b"\r\n\r\n")
    return (int(head.split(b" ", 2)[1]), body.decode()) if body else None


class Recorder(Between):
    """`share` is the part of the requests to a slot that something happens to, one of FATES: a request or an answer is
    lost, an answer cut, DELAY answered in the room's place, a request held up until after its client asked again, or a
    copy held up. Requests of one slot go on one at a time, so that the record has them in the room's order; those of
    different slots at once."""

    def __init__(self, room, trace, seed=1, share=0.0):
        self.room, self.share = room, share
        self.random, self.lock = random.Random(seed), threading.Lock()
        self.lanes, self.wanted, self.has_lost = defaultdict(threading.Lock), (None, None, "none"), threading.Event()
        self.trace = open(trace, "a", encoding="utf-8")
        self.lost, self.asked, self.under_way = Counter(dict.fromkeys(FATES, 0)), Counter(), 0
        self.codes = Counter()  # how often the room answered each code to each user
        listener = socket.create_server(("127.0.0.1", 0), backlog=256)
        self.port = listener.getsockname()[1]
        super().__init__(listener, None)

    def lose(self, user=None, word=None, fate="none"):
        """From here on that befalls what this user asks with this word; `has_lost` is set once it did."""
        self.has_lost.clear()
        self.wanted = user, word, fate

    def fate(self, message):
        with self.lock:
            self.asked[user_of(message)] += 1
            user, word, fate = self.wanted
            if word and word in message and user == user_of(message):
                self.has_lost.set()
                return fate
            draw = self.random.random() if b"/slots/" in message[:200] else 1.0
            kind = FATES[int(draw / self.share * len(FATES))] if draw < self.share else "none"
            if kind != "none":
                self.lost[kind] += 1
            return kind

    def _hand_on(self, peer):
        with contextlib.suppress(OSError), peer:
            while message := read_message(peer):
                fate = self.fate(message)
                with self.working():
                    answer = self.passed(message, fate)
                if not answer or fate in ("request", "answer", "held"):
                    return
                peer.sendall(answer[:-1] if fate == "cut" else answer)
                if fate == "cut":
                    return

    @contextlib.contextmanager
    def working(self):
        with self.lock:
            self.under_way += 1
        try:
            yield
        finally:
            with self.lock:
                self.under_way -= 1

    def is_idle(self):
        """Whether nothing is under way, and nothing comes for a moment."""
        before = self.asked.total()
        time.sleep(MOMENT)
        return self.under_way == 0 and self.asked.total() == before

    def passed(self, message, fate):
        if fate in ("held", "twice"):
            with self.lock:
                pause = self.random.uniform(*HELD)
            threading.Thread(target=self._come_late, args=(message, pause), daemon=True).start()
        if fate in ("request", "held"):
            return self.note(message, b"")
        if fate == "delay":
            head = b"HTTP/1.1 503 Service Unavailable\r\ncontent-type: application/json\r\ncontent-length: %d\r\n\r\n"
            return self.note(message, head % len(DELAY) + DELAY, is_told=True)
        return self.ask(message, is_told=fate not in ("answer", "cut"))

    def _come_late(self, message, pause):
        with self.working():
            time.sleep(pause)
            self.ask(message, is_late=True)

    def ask(self, message, **how):
        lane = LANE.search(message[:200].decode("latin-1"))
        with self.lanes[lane[0]] if lane else contextlib.nullcontext():
            try:
                answer = self._answer(message)
            except OSError:
                answer = b""
            return self.note(message, answer, **how)

    def _answer(self, message):
        self.to = self.room.port
        return super()._answer(message)

    def note(self, message, answer, is_told=False, is_late=False):
        method, target, body = split(message)
        its = answer_of(answer) if answer else None
        self.write({"user": user_of(message), "method": method, "target": target, "body": body, "answered": its,
                    "told": is_told and its is not None, "is_late": is_late})
        if its:
            self.codes[user_of(message), json.loads(its[1])["code"]] += 1
        return answer

    def write(self, it):
        text = json.dumps(it) + "\n"
        with self.lock:
            self.trace.write(text)

    def anew(self):
        """From here on the room knows no session of before."""
        self.write({"anew": True})

    def end(self):
        super().end()
        self.trace.close()
