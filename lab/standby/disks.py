"""Two disks of one machine as btrfs RAID1: one dies under the load, and the room goes on. It is no standby."""
import os
import shutil
import subprocess
import time

from lab import PATH, Disk, sh, until
from load import USERS, Load
from served import Line, Room, findings_of

SIZE = 512 << 20  # bytes of each disk
ROUNDS = 3


def lacking():
    return [it for it in ("mkfs.btrfs", "btrfs") if not shutil.which(it, path=PATH)]


def die(disk):
    """From now on each read and write of it fails."""
    os.truncate(disk.path, 0)
    sh("losetup", "--set-capacity", disk.device)


class Here:
    """This machine, as the load asks a machine."""

    def __init__(self, port):
        self.port = port

    def connect(self, _, seconds):
        line = Line(self.port)
        line.socket.settimeout(seconds)
        return line.socket


def play(folder, tally, dice):
    for n in range(ROUNDS):
        work = os.path.join(folder, f"pair{n}")
        os.mkdir(work)
        pair(work, tally, dice)
    print(f"standby: {ROUNDS} times one of two disks died under the load, and the room went on", flush=True)


def pair(folder, tally, dice):
    sh("ip", "link", "set", "lo", "up")
    disks, at = [Disk(folder, it, SIZE) for it in ("one", "two")], os.path.join(folder, "at")
    os.mkdir(at)
    devices = [it.device for it in disks]
    sh("mkfs.btrfs", "-q", "-m", "raid1", "-d", "raid1", *devices)
    sh("btrfs", "device", "scan", *devices)
    sh("mount", "-t", "btrfs", devices[0], at)
    for it in disks:
        it.mounted()
    try:
        one_dies(at, disks, tally, dice)
    finally:
        subprocess.run(["umount", "--lazy", at], capture_output=True)


def one_dies(at, disks, tally, dice):
    roster = "[users]\n" + "".join(f"{it} = [{', '.join(map(repr, USERS[it]))}]\n" for it in USERS)
    room = Room(at, roster.replace("'", '"'))
    room.start()
    here = Here(room.port)
    load = Load(lambda: here, dice.random()).begin()
    load.start()
    time.sleep(0.5)
    die(dice.choice(disks))
    before = len(load.times)
    until(lambda: len(load.times) > before + 20 or load.fault, 60, "the room goes on with one disk")
    time.sleep(1)
    load.stop()
    tally.need(load.fault is None, f"a disk died: {load.fault!r}")
    tally.differs("and nobody is told DELAY", load.delays, 0)
    room.kill()
    for kind, want in load.model.reports().items():
        tally.differs(f"report {kind} from one disk", room.report(kind), (0, want.encode(), b""))
    tally.differs("SQLite finds", findings_of(room.db), [])
    print(f"standby: one of two disks died: {load.answered} answers, the slowest after "
          f"{max(done - begun for begun, done, _ in load.times):.2f} seconds", flush=True)
