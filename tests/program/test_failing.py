"""Sends the examples of crates/test_examples/data, each scene as one stream, through `replay` while reads or writes
fail.

A stream is read a byte a call, a long one some bytes a call, and written a byte a call: what is due is written. It
ends in the middle of each message: the messages before are answered, and then 40. The reader fails once it has given so
many bytes, in the middle of each message and behind each: the messages that came whole before are answered, and the
fault is `read failed`. The writer fails once it has taken so many bytes, in the middle of each answer and behind each,
or takes none at the call of each answer: what is written is a beginning of that length, and the fault is `write
failed`. A library that is loaded before the C library fails the calls, and sees that none is tried again. Scenes are
played as far as one stream goes.

EVERY: of a stream with more than SHORT messages each how manieth of them is tried, from a number that SEED chooses.
"""
import bisect
import concurrent.futures
import glob
import itertools
import os
import random
import re

import preloaded
import pytest
import scenes
from given import each, number
from served import HERE, ROSTER, message, put_file, run, whole

EVERY, SEED = number("EVERY", 17), number("SEED", 1)
FILES = sorted(glob.glob(os.path.join(HERE, "..", "crates", "test_examples", "data", "*.txt")))
AT_ONCE = 2
SHORT = 12
CALLS = 20000  # reads of a stream, at most, but for that of LARGEST
READS = 150000
LARGEST = "largest_document"  # read a byte a call
BAD_HTTP = b'{"code":40,"error":"BAD_HTTP"}'
GOOD, BAD = (0, b""), (1, b"fileroom: bad message\n")
READ_FAILED, WRITE_FAILED = (1, b"fileroom: read failed\n"), (1, b"fileroom: write failed\n")
pytestmark = pytest.mark.timeout(1200 if EVERY > 1 else 3600)


BODY = {"entries": [], "group": "g", "groups": [], "mask": 1, "owner": "o", "user": "u"}
QUESTION = message(None, "POST", "/v1/check", BODY)
ANSWER, CUT = whole(b'{"allowed":0,"bit":1,"code":0}'), whole(BAD_HTTP, 400, True)
AS_CURL = b"POST /v1/sessions/0123456789abcdef0123456789abcdef HTTP/1.1\r\nHost: localhost:8080\r\nUser-Agent: " \
    b"curl/8.5.0\r\nAccept: */*\r\nroom-user: ann\r\nContent-Length: 11\r\nContent-Type: " \
    b"application/x-www-form-urlencoded\r\n\r\n{\"slots\":3}"


class Stream:
    """The messages of a scene and the answers that are due, up to the one that ends it."""

    def __init__(self, scene):
        self.name, self.messages, self.answers, numbers = scene.name, [], [], scenes.Numbers()
        self.end, self.is_over = GOOD, False
        for step in scene.whole():
            if self.is_over or isinstance(step, scenes.Next):
                break
            if isinstance(step, scenes.Request):
                self.add(step, numbers)
        self.sent, self.due = b"".join(self.messages), b"".join(self.answers)

    def add(self, step, numbers):
        for count in range(step.times):
            self.messages.append(step.message(count, numbers))
            self.answers.append(step.due(count))
            if self.answers[-1].endswith(BAD_HTTP):
                self.end = BAD
            self.is_over = step.closes or self.end == BAD
            if self.is_over:
                break

    def ends(self):
        """Where each message ends. (Behind the last one others may stand, which nobody reads.)"""
        return ends([*self.messages[:-1], self.messages[-1][: read_of(self.messages[-1])]])

    def tried(self):
        """The numbers of the messages that are tried."""
        every = EVERY if len(self.messages) > SHORT else 1
        first = random.Random(f"{SEED} {self.name}").randrange(every)
        return range(first, len(self.messages), every)


def ends(pieces):
    return list(itertools.accumulate(map(len, pieces)))


def read_of(message):
    """So many bytes of it are read."""
    head = message.partition(b"\r\n\r\n")[0]
    length = re.search(rb"\ncontent-length: *([0-9]+)", head.lower())
    return min(len(head) + 4 + int(length[1]), len(message)) if length else len(message)


class Player:
    """Runs of `replay` in which calls fail."""

    def __init__(self, folder):
        roster = os.path.join(folder, "roster.toml")
        self.replay = "replay", roster, "ann", "eng"
        put_file(roster, ROSTER)
        self.env = {**os.environ, "LD_PRELOAD": preloaded.built(folder, os.path.join(HERE, "lib", "fail.c"))}

    def ended(self, words, sent, **how):
        status, written, faults = run(*words, stdin=sent, env={**self.env, **how}, timeout=300)
        return (status, faults), written

    def played(self, sent, **how):
        return self.ended(self.replay, sent, **how)

    def byte_by_byte(self, stream):
        step = 1 if stream.name == LARGEST else 1 + len(stream.sent) // CALLS
        found = self.played(stream.sent, FAIL_READ=f"{step} - 0", FAIL_WRITE="1 - 0")
        assert (stream.name, *found) == (stream.name, stream.end, stream.due)

    def is_cut(self, stream, at, taken):
        """The stream ends behind these bytes, where message `at` is not whole."""
        due = BAD, b"".join(stream.answers[:at]) + CUT
        assert (stream.name, taken, *self.played(stream.sent[:taken])) == (stream.name, taken, *due)

    def reader_fails(self, stream, taken):
        """The reader fails once these bytes of the stream were taken. That a message is none may be seen before it
        ends."""
        is_bad, count = stream.end == BAD, len(stream.messages)
        before = min(bisect.bisect_right(stream.ends(), taken), count - is_bad)
        due = [(READ_FAILED, b"".join(stream.answers[:before]))]
        if stream.is_over and before == count - is_bad:
            due = due * is_bad + [(stream.end, stream.due)]
        found = self.played(stream.sent, FAIL_READ=f"0 a {taken}")
        assert found in due, (stream.name, taken)

    def writer_fails(self, stream, taken):
        """The writer fails once it has taken so many bytes."""
        if taken < len(stream.due):
            found = self.played(stream.sent, FAIL_WRITE=f"0 a {taken}")
            assert (stream.name, *found) == (stream.name, WRITE_FAILED, stream.due[:taken])

    def writer_takes_none(self, stream, at, before):
        found = self.played(stream.sent, FAIL_WRITE=f"0 n {at + 1}")
        assert (stream.name, at, *found) == (stream.name, at, WRITE_FAILED, stream.due[:before])

    def play(self, stream):
        sent, due = [0, *stream.ends()], [0, *ends(stream.answers)]
        self.byte_by_byte(stream)
        for at in stream.tried():
            dice = random.Random(f"{SEED} {stream.name} {at}")
            if sent[at + 1] - sent[at] > 1:
                self.is_cut(stream, at, dice.randrange(sent[at] + 1, sent[at + 1]))
            self.reader_fails(stream, dice.randrange(sent[at], sent[at + 1]))
            self.reader_fails(stream, sent[at + 1])
            self.writer_fails(stream, dice.randrange(due[at], due[at + 1]))
            self.writer_fails(stream, due[at + 1])
            self.writer_takes_none(stream, at, due[at])


@pytest.fixture(scope="module")
def player(tmp_path_factory):
    return Player(str(tmp_path_factory.mktemp("player")))


@each("path", [(os.path.basename(it), it) for it in FILES])
def test_examples(player, path):
    streams = [Stream(it) for it in scenes.read(path) if it.is_played("memory") and it.is_played("stream")]
    streams = [it for it in streams if it.messages]
    assert streams
    with concurrent.futures.ThreadPoolExecutor(AT_ONCE) as pool:
        played = [pool.submit(player.play, it) for it in streams]
        try:
            for it in played:
                it.result()
        finally:
            pool.shutdown(cancel_futures=True)


@each("word, before, answer, last", [
    ("check", "check", QUESTION, ANSWER, QUESTION), ("replay", "replay", QUESTION, ANSWER, QUESTION),
    ("replay, as curl writes it", "replay", b"", b"", AS_CURL)])
def test_cut_behind_each_byte(player, word, before, answer, last):
    """A stream that ends, or is read no further, within a message: the messages before are answered."""
    words = {"check": ("check",), "replay": player.replay}[word]
    for size in range(1, len(last)):
        sent = before + last[:size]
        assert (size, *player.ended(words, sent)) == (size, BAD, answer + CUT)
        assert (size, *player.ended(words, sent, FAIL_READ=f"0 a {len(sent)}")) == (size, READ_FAILED, answer)
    found = player.ended(words, before + last, FAIL_READ="1 - 0", FAIL_WRITE="1 - 0")
    assert found == player.ended(words, before + last)


def test_many_short_reads(player):
    """They are read to their end."""
    count = READS // len(QUESTION) + 1
    assert player.ended(("check",), QUESTION * count, FAIL_READ="1 - 0") == (GOOD, ANSWER * count)


@each("words, sent", [("a question", ("check",), QUESTION), ("a report of access", ("report", "access"), b""),
                      ("a report of lists", ("report", "lists"), b"")])
def test_a_writer_that_fails_behind_each_byte(player, words, sent, own):
    """Or that takes none at a call."""
    words = ("report", own.db, own.roster, words[1]) if words[1:] else words
    end, text = player.ended(words, sent)
    assert (end, len(text) > 50) == (GOOD, True)
    for taken in range(len(text)):
        assert player.ended(words, sent, FAIL_WRITE=f"0 a {taken}") == (WRITE_FAILED, text[:taken])
    assert player.ended(words, sent, FAIL_WRITE="7 n 3") == (WRITE_FAILED, text[:14])
