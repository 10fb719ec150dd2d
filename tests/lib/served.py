"""What the scripts of tests/ and bench/ share: a room in a file, served on a loopback port, asked over plain sockets.

FILEROOM names another program than build/fileroom. A script calls `need_program` first: from then on it ends, and its
servers and folders with it, when it is stopped, when its parent ends, and when it takes longer than it may.
`python3 tests/lib/served.py` prints a free port.
"""
import atexit
import collections
import contextlib
import ctypes
import fcntl
import http
import itertools
import json
import os
import random
import re
import resource
import shutil
import signal
import socket
import sqlite3
import struct
import subprocess
import sys
import tempfile
import threading
import time

HERE = os.path.dirname(os.path.dirname(os.path.abspath(__file__)))  # (tests/)
PROGRAM = os.path.realpath(os.environ.get("FILEROOM", os.path.join(HERE, "..", "build", "fileroom")))
SCRIPT = os.path.relpath(os.path.abspath(sys.argv[0]), os.path.join(HERE, ".."))
SID = "0123456789abcdef0123456789abcdef"
ROSTER = '[users]\nann = ["eng"]\nbob = ["eng", "staff"]\neng = []\n'
WAIT = 120  # seconds for any one answer, on a machine that has much to do
HANGS = 300  # seconds for a command: the same, where all that it does may wait for a processor
STOPS = (signal.SIGTERM, signal.SIGINT, signal.SIGHUP, signal.SIGALRM)
LIBC = ctypes.CDLL(None)
SET_PDEATHSIG = 1  # of prctl
MOST_TOLD = 12  # statements that failed, at the end of a script
SIOCGIFFLAGS, SIOCSIFFLAGS, IFF_UP = 0x8913, 0x8914, 1
started_here = []
held_ports = collections.deque(maxlen=16)  # sockets, each at a port that a server of this process soon has
stopping = threading.Event()  # from then on no server is started


def end_with_parent(number=signal.SIGKILL):
    """Has the system send this process that signal as its parent ends."""
    LIBC.prctl(SET_PDEATHSIG, int(number))


class WithWorkers(subprocess.Popen):
    """A server that has its work done by processes below it: they are killed with it, and as its parent ends it ends
    them itself."""

    def __init__(self, words, **how):
        super().__init__(words, start_new_session=True, preexec_fn=lambda: end_with_parent(signal.SIGTERM), **how)

    def kill(self):
        with contextlib.suppress(ProcessLookupError):
            os.killpg(self.pid, signal.SIGKILL)


def end_servers():
    for child in started_here:
        child.kill()


def stopped(number, _):
    for it in STOPS:
        signal.signal(it, signal.SIG_IGN)
    stopping.set()
    end_servers()
    why = "took longer than it may" if number == signal.SIGALRM else f"stopped by {signal.Signals(number).name}"
    sys.exit(f"{SCRIPT}: {why}")


def guard(limit):
    """Ends this script in order when it is stopped, when its parent ends, and after so many seconds."""
    for it in STOPS:
        if it != signal.SIGHUP or signal.getsignal(it) != signal.SIG_IGN:  # (nohup)
            signal.signal(it, stopped)
    end_with_parent(signal.SIGTERM)
    signal.alarm(limit)
    atexit.register(end_servers)


def need_program(limit=900):
    if not os.access(PROGRAM, os.X_OK):
        sys.exit(f"{SCRIPT}: there is no {PROGRAM}: run make build")
    guard(limit)


@contextlib.contextmanager
def work_folder(**how):
    """A folder for this run. The servers end before it goes."""
    with tempfile.TemporaryDirectory(prefix="fileroom-", **how) as folder:
        try:
            yield folder
        finally:
            end_servers()


def start_program(*words, **how):
    """The program as a process that ends with the thread that starts it, at the latest."""
    if stopping.is_set():
        sys.exit(f"{SCRIPT}: it ends")
    child = subprocess.Popen([PROGRAM, *words], **{"preexec_fn": end_with_parent, **how})
    started_here.append(child)
    return child


def run(*words, stdin=b"", **how):
    """The status, the output and the faults of one run of the program."""
    how = {"input": stdin, "capture_output": True, "timeout": HANGS, "preexec_fn": end_with_parent, **how}
    done = subprocess.run([PROGRAM, *words], **how)
    return done.returncode, done.stdout, done.stderr


def narrow(size):
    """How a program is started whose files cannot grow beyond so many bytes. (The signal of that is ignored, as Python
    ignores it: so the write fails, and the program goes on.)"""
    def begin():
        end_with_parent()
        resource.setrlimit(resource.RLIMIT_FSIZE, (size, resource.RLIM_INFINITY))
    return {"preexec_fn": begin, "restore_signals": False}


def sqlite(db, text):
    """What the sqlite3 program says to this text."""
    how = {"input": text, "capture_output": True, "text": True, "timeout": HANGS}
    done = subprocess.run(["sqlite3", "-batch", db], **how)
    return done.stdout + done.stderr


def findings_of(db):
    """What SQLite finds wrong in a file: in its pages, its rows, and where one refers to another."""
    try:
        with contextlib.closing(sqlite3.connect(db)) as table:
            found = [it for name in ("integrity_check", "foreign_key_check") for it in table.execute(f"PRAGMA {name}")]
    except sqlite3.Error as fault:
        return [str(fault)]
    return found[1:] if found[:1] == [("ok",)] else found


def lists_say(db):
    """The status of tools/lists, and what it says."""
    words = [os.path.join(HERE, "..", "tools", "lists"), db]
    done = subprocess.run(words, capture_output=True, text=True, timeout=HANGS)
    return done.returncode, done.stdout


def fresh_tables():
    """The statements of docs/TABLES.md that make a fresh room of ann and eng."""
    return text_of(os.path.join(HERE, "..", "docs", "TABLES.md")).split("```sql\n")[1].split("```")[0]


def put_version_1(db, owner="ann", group="eng"):
    """Makes a fresh room of version 1, by the statements of tests/cases/version1.sql."""
    lines = text_of(os.path.join(HERE, "cases", "version1.sql")).splitlines(keepends=True)
    rows = f"""INSERT INTO room VALUES (1, 1, 2); INSERT INTO node VALUES (1, NULL, '', 1, '{owner}', '{group}', 0);
INSERT INTO entry VALUES (1, 0, 0, 3, 2033663, 'OWNER@'), (1, 1, 0, 3, 1179817, 'GROUP@');"""
    with contextlib.closing(sqlite3.connect(db)) as table:
        table.executescript("".join(it for it in lines if it.startswith("CREATE TABLE ")) + rows)


def text_of(path):
    with open(path, encoding="utf-8") as file:
        return file.read()


def bytes_of(path):
    with open(path, "rb") as file:
        return file.read()


def put_file(path, data):
    """Writes a text, or bytes, and makes the folders above."""
    os.makedirs(os.path.dirname(path) or ".", exist_ok=True)
    with open(path, "wb") as file:
        file.write(data if isinstance(data, bytes) else data.encode())


def peak_of(pid):
    """The most memory that a process has held, in KiB, or 0 once it has ended."""
    with open(f"/proc/{pid}/status") as status:
        return next((int(line.split()[1]) for line in status if line.startswith("VmHWM:")), 0)


def free_port():
    """A port that nobody has, below those that the system gives to clients and those of tests/around/service. It is
    held until a server has it: other processes that look for one pass it over."""
    for port in random.SystemRandom().sample(range(10000, 20000), 100):
        it = socket.socket()
        try:
            it.bind(("127.0.0.1", port))
        except OSError:
            it.close()
            continue
        it.setsockopt(socket.SOL_SOCKET, socket.SO_REUSEADDR, 1)  # (a server that sets it too can listen there)
        held_ports.append(it)
        return port
    sys.exit(f"{SCRIPT}: no port is free")


def loopback():
    """Sets the loopback of this namespace going."""
    with socket.socket() as it:
        flags, = struct.unpack_from("16xH", fcntl.ioctl(it, SIOCGIFFLAGS, struct.pack("16s16x", b"lo")))
        fcntl.ioctl(it, SIOCSIFFLAGS, struct.pack("16sH14x", b"lo", flags | IFF_UP))


def listener(port):
    """The socket that listens on a port, as /proc names it, or None. (Those that listen stand before all others.)"""
    with open("/proc/net/tcp") as sockets:
        rows = itertools.takewhile(lambda it: it[3] == "0A", map(str.split, itertools.islice(sockets, 1, None)))
        return next((f"socket:[{it[9]}]" for it in rows if it[1].endswith(f":{port:04X}")), None)


def waiting_at(port):
    """How many connections to a port have sent something that nobody has read."""
    words = ["ss", "-Htn", "state", "established", f"sport = :{port}"]
    rows = subprocess.run(words, capture_output=True, text=True, check=True).stdout.splitlines()
    return sum(int(it.split()[0]) > 0 for it in rows)


def has_file(server, name):
    """Whether one of the open files of this process has a name."""
    folder = f"/proc/{server.pid}/fd"
    with contextlib.suppress(OSError):
        return any(os.readlink(os.path.join(folder, it)) == name for it in os.listdir(folder))
    return False


def until(task, seconds=WAIT, pause=0.02):
    """The first true value of a task, or its last one after so many seconds."""
    end = time.monotonic() + seconds
    while not (found := task()) and time.monotonic() < end:
        time.sleep(pause)
    return found


def least(measure, enough, times=9):
    """The least of some numbers, the last of which is below `enough`, if one of so many is: a machine that has much to
    do adds to the seconds of each."""
    found = []
    while len(found) < times and (not found or found[-1] >= enough):
        found.append(measure())
    return min(found)


def wait_for_port(port, server, longest=WAIT):
    """Waits until this server, and no other, listens on a port. False where it ended before."""
    end = time.monotonic() + longest
    while time.monotonic() < end:
        if server.poll() is not None:
            return False
        name = listener(port)
        if name and has_file(server, name):
            return True
        time.sleep(0.005)
    sys.exit(f"{SCRIPT}: the server does not listen")


def place_of(frame):
    """The line of a script where a call is."""
    return f"{os.path.relpath(frame.f_code.co_filename, os.path.join(HERE, '..'))}:{frame.f_lineno}"


class Tally:
    """Counts what a script compares, and prints what differs; what failed once more at the end, a line each, since a
    record may be the end alone. The last line is 'N passed, M failed'."""

    def __init__(self):
        self.passed = self.failed = 0
        self.told = []  # of what failed

    def differs(self, name, got, want):
        if got == want:
            self.passed += 1
            return
        self.fails(f"{name} ({place_of(sys._getframe(1))})")
        print(f"DIFFERS {name}\n  got  {str(got)[:600]}\n  want {str(want)[:600]}", flush=True)

    def fails(self, text):
        self.failed += 1
        self.told.append(text.split("\n")[0][:400])

    def need(self, fact, text):
        """As differs, where nothing can go on after what is wrong."""
        self.passed += bool(fact)
        if not fact:
            self.fails(text)
            print(f"{SCRIPT}: {text}")
            self.end()

    def take_over(self, name, said):
        """Prints what another script said, but for its last line, and adds its counts."""
        *lines, last = said.splitlines() or [""]
        counts = re.fullmatch(r"(\d+) passed, (\d+) failed", last)
        print("\n".join(lines if counts else [*lines, last]), flush=True)
        self.differs(f"{name} came to its end", bool(counts), True)
        if counts:
            self.passed += int(counts[1])
            self.failed += int(counts[2])
            self.told += [it.removeprefix("FAILED: ") for it in lines if it.startswith("FAILED: ")]

    def end(self):
        for it in self.told[:MOST_TOLD]:
            print(f"FAILED: {it}")
        print(f"{self.passed} passed, {self.failed} failed", flush=True)
        sys.exit(self.failed != 0)


def skip(why):
    """Ends a script that this machine cannot run: tests/gate counts it as skipped, and says why."""
    print(f"skipped: {why}", flush=True)
    sys.exit(0)


def message(user, method, target, body=b"", version="1.1", fields=()):
    """The bytes of one message. A body that is no bytes is written as compact JSON."""
    if not isinstance(body, bytes):
        body = json.dumps(body, separators=(",", ":")).encode()
    lines = [f"{method} {target} HTTP/{version}"]
    if user is not None:
        lines.append(f"room-user: {user}")
    lines += list(fields) + [f"content-length: {len(body)}", "", ""]
    return "\r\n".join(lines).encode() + body


def session(slots=3, sid=SID, user="ann"):
    return message(user, "POST", f"/v1/sessions/{sid}", {"slots": slots})


def slot(number, seq, command, user="ann", sid=SID):
    return message(user, "POST", f"/v1/sessions/{sid}/slots/{number}/{seq}", command)


def whole(body, status=200, last=False):
    """The bytes of an answer."""
    closing = b"connection: close\r\n" if last else b""
    return b"HTTP/1.1 %d %s\r\ncontent-type: application/json\r\ncontent-length: %d\r\n%s\r\n%s" % (
        status, http.HTTPStatus(status).phrase.encode(), len(body), closing, body)


class Answer:
    def __init__(self, head, body):
        first, *fields = head.decode("latin-1").split("\r\n")
        self.status = int(first.split(" ")[1])
        self.first = first
        self.fields = fields
        self.body = body
        self.whole = head + b"\r\n\r\n" + body

    def __repr__(self):
        return f"{self.status} {self.body[:200].decode('latin-1')}"


def first_answer(written):
    """The answer that these bytes begin with, and what stands behind it, or None."""
    head, end, rest = written.partition(b"\r\n\r\n")
    if not end:
        return None
    told = re.search(rb"(?i)\r\ncontent-length:[ \t]*([0-9]+)", head)
    length = int(told[1]) if told else 0
    return (Answer(head, rest[:length]), rest[length:]) if len(rest) >= length else None


def answers(written):
    """The answers that a stream holds. Bytes that are no whole answer are left out."""
    found = first_answer(written)
    while found:
        yield found[0]
        found = first_answer(found[1])


class Line:
    """One connection."""

    def __init__(self, port, source="127.0.0.1"):
        self.socket = socket.create_connection(("127.0.0.1", port), WAIT, (source, 0))
        self.socket.setsockopt(socket.IPPROTO_TCP, socket.TCP_NODELAY, 1)
        self.rest = b""

    def fileno(self):
        return self.socket.fileno()

    def send(self, data):
        self.socket.sendall(data)

    def more(self):
        piece = self.socket.recv(1 << 17)
        self.rest += piece
        return bool(piece)

    def answer(self):
        """The next answer, or None at the end of the connection."""
        found = first_answer(self.rest)
        while not found:
            if not self.more():
                return None
            found = first_answer(self.rest)
        self.rest = found[1]
        return found[0]

    def ask(self, data):
        self.send(data)
        return self.answer()

    def end(self):
        """Nothing more is sent."""
        with contextlib.suppress(OSError):
            self.socket.shutdown(socket.SHUT_WR)

    def taken(self):
        """What came and is no whole answer."""
        rest, self.rest = self.rest, b""
        return rest

    def to_end(self):
        """All that still comes."""
        while self.more():
            pass
        return self.rest

    def close(self):
        self.socket.close()


def one_answer(port, data, source="127.0.0.1"):
    """The answer to one message over a connection of its own, or None where there was none."""
    with contextlib.suppress(OSError), contextlib.closing(Line(port, source)) as line:
        return line.ask(data)


class Room:
    """A room in a folder, which it makes, with a server that can be started, killed and started again."""
    longest = WAIT  # seconds until it listens

    def __init__(self, folder, roster=ROSTER, owner="ann", group="eng", made=True):
        os.makedirs(folder, exist_ok=True)
        self.db = os.path.join(folder, "room.db")
        self.roster = os.path.join(folder, "roster.toml")
        self.server = None
        self.env = None  # (that of this script)
        self.port = free_port()
        with open(self.roster, "w") as file:
            file.write(roster)
        if made:
            told = run("init", self.db, owner, group)
            if told != (0, b"", b""):
                sys.exit(f"{SCRIPT}: init ended with {told}")

    def copied(self, kind, folder):
        """A room of this class in this folder over a copy of the file, which no server has open."""
        with open(self.roster) as file:
            copy = kind(folder, file.read(), made=False)
        shutil.copy(self.db, copy.db)
        return copy

    def start(self, count=4294967295, **how):
        """Starts the server, on another port where somebody took this one meanwhile."""
        how = {"env": self.env, **how}
        for _ in range(3):
            self.server = start_program("serve", self.db, self.roster, str(self.port), str(count), **how)
            if self.listens():
                return self
            self.port = free_port()
        sys.exit(f"{SCRIPT}: serve ended at once with status {self.server.returncode}")

    def listens(self):
        return wait_for_port(self.port, self.server, self.longest)

    def line(self):
        return Line(self.port)

    def peak(self):
        """The most memory that the server has held, in KiB."""
        return peak_of(self.server.pid)

    def kill(self):
        """Ends the server at once, as a fault of the machine's would."""
        self.server.kill()
        self.server.wait()

    def wait(self):
        """The status of a server that ends by itself."""
        return self.server.wait(WAIT)

    def report(self, kind, **how):
        return run("report", self.db, self.roster, kind, **how)


class PlayedRoom(Room):
    """A room with a server while one is needed, and a connection to it while one is open."""
    open_line = None

    def connect(self):
        """The connection that is open, or a new one."""
        if not self.server:
            self.start()
        self.open_line = self.open_line or self.line()
        return self.open_line

    def hang_up(self):
        if self.open_line:
            self.open_line.close()
            self.open_line = None

    def stop(self):
        self.hang_up()
        if self.server:
            self.kill()
            self.server = None

    def set_next(self, number):
        """Has the next new object get this number."""
        self.stop()
        with sqlite3.connect(self.db) as table:
            table.execute("UPDATE room SET next = ?", (number,))
        table.close()


if __name__ == "__main__":
    print(free_port())
