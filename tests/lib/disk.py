"""A disk of which a machine loses the power: a program's system calls are recorded (by strace), and after each of them
the files are made as that may leave them.

What was flushed is there. Of what was written since, all is, or none, or what came first, or any sectors of 512 bytes,
in any order, or any bytes; past the length that was flushed last anything may be, and a file that was never flushed may
be gone.
"""
import os
import re
import subprocess

from served import PROGRAM, end_with_parent, put_file, started_here, text_of

SECTOR = 512
CALLS = "openat,pwrite64,pwritev,write,writev,sendto,ftruncate,fdatasync,fsync,unlink,unlinkat,rename,close"
CALL = re.compile(r"(?:\d+ +)?(\w+)\((.*)\) += (-?\d+)(?: .*)?$")


def recorded(words, log):
    """The program with these words, and its calls in this file."""
    how = {"preexec_fn": end_with_parent, "stdin": subprocess.DEVNULL, "stdout": subprocess.PIPE}
    strace = ["strace", "-D", "-f", "-qq", "-xx", "-s", "1000000", "-e", f"trace={CALLS}", "-e", "signal=none"]
    child = subprocess.Popen([*strace, "-o", log, PROGRAM, *words], **how)
    started_here.append(child)
    return child


def unquoted(text):
    return bytes.fromhex(text.strip('"').replace("\\x", ""))


class Disk:
    """Files as they were flushed, with what was written since; each step is a call."""

    def __init__(self, files, dice, flushes=True):
        self.dice, self.flushed, self.since, self.flushes = dice, dict(files), {}, flushes
        self.names, self.answers, self.count = {}, 0, 0  # (of flushes behind the first answer)

    def step(self, name, words, result):
        """Whether the call changed what a loss of power may leave, or what was answered."""
        first, *more = [it.strip() for it in re.findall(r'"(?:[^"\\]|\\.)*"|[^,]+', words)]
        if name == "openat":
            path = os.path.basename(unquoted(more[0]).decode())
            if result >= 0:
                self.names[result] = path
                if "O_CREAT" in words and path not in self.flushed:
                    self.since.setdefault(path, [])
            return False
        number = int(first) if first.isdigit() else None
        path = self.names.get(number)
        if name == "close":
            self.names.pop(number, None)
        elif name in ("unlink", "unlinkat", "rename", "pwritev", "writev") and path is None and "room" in words:
            raise ValueError(f"a call that the model lacks: {name}({words[:200]})")
        elif path is None:
            is_answer = name in ("write", "sendto") and unquoted(more[0]).startswith(b"HTTP/1.1 ")
            self.answers += is_answer
            return is_answer
        elif name in ("fdatasync", "fsync"):
            self.count += self.answers > 0
            if self.flushes:
                self.flushed[path] = applied(self.flushed.get(path, b""), self.since.pop(path, []))
            return True
        elif name == "pwrite64":
            self.since.setdefault(path, []).append((int(more[2]), unquoted(more[0])[:result]))
            return True
        elif name == "ftruncate":
            self.since.setdefault(path, []).append((int(more[0]), None))
            return True
        elif name in ("write", "pwritev", "writev"):
            raise ValueError(f"a call that the model lacks: {name}({words[:200]})")
        return False

    def left(self):
        """Files as a loss of power may leave them."""
        files = {}
        for path in {**self.flushed, **self.since}:
            since = self.since.get(path, [])
            if path not in self.flushed and self.dice.random() < 0.3:
                continue
            files[path] = self.dice.choice(KINDS)(self.dice, self.flushed.get(path, b""), since)
        return files


def applied(held, steps):
    """The bytes of a file after these writes and cuts."""
    made = bytearray(held)
    for at, data in steps:
        if data is None:
            made = made[:at].ljust(at, b"\0")
            continue
        made.extend(bytes(max(0, at - len(made))))
        made[at : at + len(data)] = data
    return bytes(made)


def first_of(dice, held, steps):
    """What came first is there, or all, or nothing."""
    return applied(held, steps[: dice.choice((0, len(steps), dice.randrange(len(steps) + 1)))])


def sectors_of(dice, held, steps):
    """Any sectors are there, in any order."""
    pieces = []
    for at, data in steps:
        if data is None:
            pieces.append((at, None))
            continue
        cuts = [at, *range(at - at % SECTOR + SECTOR, at + len(data), SECTOR), at + len(data)]
        pieces += [(begin, data[begin - at : end - at]) for begin, end in zip(cuts, cuts[1:])]
    kept = [it for it in pieces if dice.random() < 0.5]
    if dice.random() < 0.5:
        dice.shuffle(kept)
    return applied(held, kept)


def mixed(dice, old, new, share):
    """Each byte is the old or the new one, such a share of them the new one."""
    return bytes(after if dice.random() < share else before for before, after in zip(old.ljust(len(new), b"\0"), new))


def bytes_of(dice, held, steps):
    """Each byte of each write is there or not, half of them or all but few; past the flushed length is anything."""
    made, share = held, dice.choice((0.5, 0.01, 0.99, 0.9999))
    for at, data in steps:
        if data is not None or dice.random() < 0.5:
            made = applied(made, [(at, data and mixed(dice, made[at : at + len(data)], data, share))])
    end = min(len(held), len(made))
    past = mixed(dice, made[end:], dice.randbytes(len(made) - end), dice.choice((0, 0.5, 1)))
    return made[:end] + past[: dice.randrange(len(past) + 1)]


KINDS = first_of, sectors_of, bytes_of


def steps_of(log):
    for line in text_of(log).splitlines():
        found = CALL.match(line)
        if found:
            yield found[1], found[2], int(found[3])


def points(log, files, dice, flushes=True):
    """The disk after each call that matters, one after another."""
    disk = Disk(files, dice, flushes)
    yield disk
    for call in steps_of(log):
        if disk.step(*call):
            yield disk


def written(folder, files):
    os.makedirs(folder)
    for path, data in files.items():
        put_file(os.path.join(folder, path), data)


def held(folder):
    """The files of a room that is at rest."""
    return {it: open(os.path.join(folder, it), "rb").read() for it in os.listdir(folder) if it.startswith("room.db")}
