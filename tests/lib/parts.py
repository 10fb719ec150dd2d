"""Parts of the gate: commands that run one after another or beside each other, with their times and counts.

A part is a command. Its last line may be 'N passed, M failed'; without that it counts as one. It has failed where it
ends with another status than 0, counts a failure or nothing at all, takes longer than it may, or leaves a process or,
in the folder for its temporary files, a file; and where it could not try something, since the machine lacks what that
needs: it then prints a line 'NAME: NOT TRIED: WHAT', or ends with 'skipped: WHY'. Lines 'FAILED: WHAT' tell which of
its statements failed; lines 'again: WORDS' name the test of each, as its last word.
"""
import os
import re
import select
import shlex
import shutil
import signal
import subprocess
import sys
import tempfile
import time

from served import end_with_parent

COUNTS = re.compile(r"(\d+) passed, (\d+) failed")
FAILED = re.compile(r"(\w+: )?FAILED: ")
AGAIN = re.compile(r"again: (.+)")
NOT_TRIED = re.compile(r"(?:skipped|\w+: NOT TRIED): (.+)")
BY_PYTEST = re.compile(r"[.]+ *\[ *\d+%\]|\d+ passed.* in [\d.]+s.*")  # what it says of its own
GRACE = 20  # seconds to end in order
MOMENT = 30  # seconds for what ends with a part to see that it has ended, where other work comes first
TICKS = os.sysconf("SC_CLK_TCK")


class Log:
    """What is printed, and kept in a file with the minute in front of each line."""

    def __init__(self, path):
        os.makedirs(os.path.dirname(path), exist_ok=True)
        self.file = open(path, "w", encoding="utf-8")
        self.begin = time.monotonic()

    def minute(self):
        return (time.monotonic() - self.begin) / 60

    def line(self, text="", name=""):
        shown = f"{name} | {text}" if name else text
        print(shown, flush=True)
        self.file.write(f"{self.minute():6.2f} {shown}\n")
        self.file.flush()


class Process:
    """A process of this machine, as /proc tells of it."""

    def __init__(self, pid):
        self.pid = pid
        with open(f"/proc/{pid}/stat", errors="replace") as file:
            said = file.read().rpartition(")")[2].split()
        self.state, self.parent, self.session = said[0], int(said[1]), int(said[3])
        self.seconds = sum(map(int, said[11:15])) / TICKS

    def words(self):
        """Its words, none where it has ended."""
        try:
            with open(f"/proc/{self.pid}/cmdline", errors="replace") as file:
                return file.read().split("\0")
        except OSError:
            return []

    def folder(self):
        try:
            return os.readlink(f"/proc/{self.pid}/cwd")
        except OSError:
            return ""


def processes():
    for name in os.listdir("/proc"):
        if name.isdigit():
            try:
                yield Process(int(name))
            except OSError:
                pass


def below(pid):
    """The processes that this one started, and those of its session, itself left out."""
    left = [it for it in processes() if it.state != "Z" and it.pid != pid]
    found, new = [], {pid}
    while new:
        more = [it for it in left if it.parent in new or it.session == pid]
        left = [it for it in left if it not in more]
        found += more
        new = {it.pid for it in more}
    return found


def send(pid, number):
    try:
        os.kill(pid, number)
    except ProcessLookupError:
        pass


class Part:
    """A command with a name. `watch` gets each line, and looks at its processes.

    `due` tells whether it may begin: True, False while that may still come, and None once it cannot. `more` gives words
    that are known as it begins. `at_end` is called once it has been counted."""

    def __init__(self, name, words, limit, env=None, watch=None, own_folder=True):
        self.name, self.words, self.limit, self.env = name, words, limit, env or {}
        self.watch, self.own_folder = watch, own_folder
        self.due, self.more, self.at_end = lambda: True, list, lambda: None
        self.child = self.folder = None
        self.is_ended = False
        self.lines, self.why, self.rest, self.is_open = [], [], b"", False
        self.not_tried, self.statements, self.tests = [], [], []  # (that failed)
        self.unsteady = []
        self.passed = self.failed = 0
        self.seconds = self.ended = 0.0

    def start(self, log):
        self.log, self.begin = log, time.monotonic()
        env = {**os.environ, **self.env}
        if self.own_folder:
            # (its path is short: Chromium has a socket far below it)
            self.folder = env["TMPDIR"] = tempfile.mkdtemp(prefix="gate-")
            os.chmod(self.folder, 0o711)  # (a part may have another user at work below it)
        how = {"stdin": subprocess.DEVNULL, "stdout": subprocess.PIPE, "stderr": subprocess.STDOUT}
        how |= {"start_new_session": True, "preexec_fn": lambda: end_with_parent(signal.SIGTERM)}
        try:
            self.child = subprocess.Popen([*self.words, *self.more()], env=env, **how)
            self.is_open = True
        except OSError as error:
            self.why.append(f"it did not start: {error}")
        return self

    def read(self):
        piece = os.read(self.child.stdout.fileno(), 1 << 16)
        self.is_open = bool(piece)
        *lines, self.rest = (self.rest + piece + b"\n" * (not piece and bool(self.rest))).split(b"\n")
        for line in lines:
            self.line(line.decode(errors="replace"))

    def line(self, text):
        self.lines = [*self.lines[-20:], text]
        self.log.line(text, self.name if self.own_folder else "")
        untried = NOT_TRIED.fullmatch(text)
        if untried:
            self.not_tried.append(untried[1])
        if FAILED.match(text):
            self.statements.append(text)
        again = AGAIN.fullmatch(text)
        if again:
            self.tests.append(shlex.split(again[1])[-1])
        if self.watch:
            self.watch.line(text)

    def is_over(self):
        """Whether it has ended and all that it wrote is read. One that takes too long is stopped."""
        if self.child is None:
            return True
        if self.watch:
            self.watch.look(self.child.pid, self.log.minute())
        if self.child.poll() is None:
            if time.monotonic() - self.begin > self.limit:
                self.why.append(f"it took longer than {self.limit} seconds")
                self.stop()
            return False
        self.ended = self.ended or time.monotonic()
        left = below(self.child.pid)
        if left and time.monotonic() - self.ended < MOMENT:
            return False
        if left:
            self.why.append(f"it left processes behind: {', '.join(' '.join(it.words())[:80] for it in left)}")
            for it in left:
                send(it.pid, signal.SIGKILL)
        if self.is_open and time.monotonic() - self.ended > GRACE:
            self.why.append("something that it started goes on and holds its output")
            self.is_open = False
        return not self.is_open

    def stop(self):
        """Ends it in order, and after GRACE seconds with all that it started."""
        send(self.child.pid, signal.SIGINT if self.words[-1] == "ci" else signal.SIGTERM)
        end = time.monotonic() + GRACE
        while self.child.poll() is None and time.monotonic() < end:
            if self.words[-1] == "ci":
                # (rt waits for the checks that it has begun)
                for it in below(self.child.pid):
                    send(it.pid, signal.SIGTERM)
            time.sleep(0.2)
        for it in below(self.child.pid):
            send(it.pid, signal.SIGKILL)
        self.child.kill()
        self.child.wait()

    def finish(self):
        """Counts, once it is over."""
        self.seconds = time.monotonic() - self.begin
        if self.child:
            self.child.stdout.close()
            self.count()
        if self.folder:
            left = os.listdir(self.folder)
            if left:
                self.why.append(f"it left files behind: {' '.join(left)[:200]}")
            shutil.rmtree(self.folder, ignore_errors=True)
        if self.why and not self.failed:
            self.failed = 1
        for why in self.why:
            self.log.line(f"FAILED: {self.name}: {why}")
        self.is_ended = True
        self.at_end()

    def fail(self, why):
        """Counts one more fault of it, once it is over."""
        self.why.append(why)
        self.failed += 1
        self.log.line(f"FAILED: {self.name}: {why}")

    def tests_to_try_again(self):
        """The tests that failed, where nothing else is wrong with it."""
        return self.tests if self.why == [f"{len(self.tests)} failed", "it ended with status 1"] else []

    def forgive(self):
        """Its tests that failed have passed in another part."""
        self.unsteady, self.failed, self.why, self.statements = self.tests, 0, [], []

    def count(self):
        lines = [it for it in self.lines if it.strip()]
        found = COUNTS.fullmatch(lines[-1]) if lines else None
        if found:
            self.passed, self.failed = int(found[1]), int(found[2])
            if self.failed:
                self.why.append(f"{self.failed} failed{f': {self.watch.failed}' if self.watch else ''}")
            elif not self.passed:
                self.why.append("it showed nothing")
        elif not self.child.returncode and not self.not_tried:
            self.passed = 1
        self.why += [f"not tried: {it}" for it in self.not_tried]
        if self.child.returncode:
            self.why.append(f"it ended with status {self.child.returncode}")

    def ended_with(self, most):
        """The statements of it that failed, else the last lines that it printed: so many at most."""
        lines = self.statements[:most] or [it for it in self.lines if it.strip() and not COUNTS.fullmatch(it)][-most:]
        return [f"{self.name} | {it[:400]}" for it in lines]

    def showed(self):
        if self.child is None and not self.why:
            return "not run"
        if self.why:
            return f"FAILED: {self.why[0][:300]}"
        if self.watch:
            return self.watch.showed()
        if self.unsteady:
            return f"{self.passed} passed; UNSTEADY: {', '.join(self.unsteady)}"
        lines = [it for it in self.lines if it.strip() and not (COUNTS.fullmatch(it) or BY_PYTEST.fullmatch(it))]
        return f"{self.passed} passed: {lines[-1].removeprefix(f'{self.name}: ')}" if lines else f"{self.passed} passed"


def play(lanes, log):
    """Runs the parts of each lane in turn, and the lanes beside each other. A part that is not due holds its lane, and
    ends it where it cannot be due any more. However this ends, no part goes on."""
    left, now = [list(lane) for lane in lanes], [None for _ in lanes]
    try:
        while any(now) or any(left):
            for at, part in enumerate(now):
                is_due = part is None and left[at] and left[at][0].due()
                if is_due:
                    now[at] = left[at].pop(0).start(log)
                elif is_due is None:
                    left[at] = []
            pipes = {it.child.stdout: it for it in now if it and it.is_open}
            for pipe in select.select([*pipes], [], [], 1)[0]:
                pipes[pipe].read()
            for at, part in enumerate(now):
                if part and part.is_over():
                    now[at] = None
                    part.finish()
    finally:
        for part in now:
            if part and part.child:
                part.stop()
            if part and part.folder:
                shutil.rmtree(part.folder, ignore_errors=True)


def table(rows):
    """Lines of columns as wide as they have to be. A number stands to the right."""
    texts = [[f"{it:.1f}" if isinstance(it, float) else str(it) for it in row] for row in rows]
    wide = [max(len(row[at]) for row in texts) for at in range(len(texts[0]) - 1)]
    for row, text in zip(rows, texts):
        is_number = [isinstance(it, float) for it in row]
        cells = [it.rjust(w) if right else it.ljust(w) for it, right, w in zip(text, is_number, wide)]
        yield "  ".join([*cells, text[-1]])


if __name__ == "__main__":
    sys.exit("parts.py is part of tests/gate")
