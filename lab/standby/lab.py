"""A laboratory: three machines as namespaces on a bridge, on a disk of its own, which all end with the script.

`inside` starts a script again in namespaces of its own. There `Lab` makes a file system in a file that has no name any
more, and machines: each has its network, mounts, processes and name, its `/etc`, `/var`, `/usr/local`, `/run` and
`/srv`, and ends by one SIGKILL to its first process. Whatever ends the script ends all of it.
"""
import contextlib
import ctypes
import fcntl
import os
import shutil
import signal
import socket
import struct
import subprocess
import sys

import served
from served import LIBC, WAIT, end_with_parent

NET = 0x40000000  # CLONE_NEWNET of setns
UNSHARE = ["unshare", "--net", "--mount", "--uts", "--pid", "--fork", "--kill-child", "--mount-proc"]
NEEDED = ("unshare", "nsenter", "ip", "mkfs.ext4", "glusterd", "gluster", "glusterfs", "mount.glusterfs",
          "sqlite3", "setpriv", "systemd-sysusers", "nft")
PATH = os.pathsep.join([os.environ.get("PATH", ""), "/usr/sbin", "/sbin"])
DISK = 6 << 30  # bytes of the file that all machines lie in; it is sparse
BUSY = "Locking failed", "Another transaction is in progress"  # of gluster: nothing was done
BRIDGE = "10.77.0.254/24"
WALL = "/srv/bin/fileroom-ports"  # of a machine that has it: it is put up with its link
# what the first process of a machine does: its own folders over those of the machine below, then it waits for its end
FIRST = """
set -e
mount --make-rprivate /
hostname "$1"
for it in /etc /var /usr/local; do
    mkdir -p "$2/upper$it" "$2/work$it"
    mount -t overlay layer -o "lowerdir=$it,upperdir=$2/upper$it,workdir=$2/work$it" "$it"
done
mkdir -p "$2/glusterd" "$2/log" "$2/srv" /var/lib/glusterd /var/log/glusterfs
mount --bind "$2/glusterd" /var/lib/glusterd
mount --bind "$2/log" /var/log/glusterfs
mount --bind "$2/srv" /srv
mount -t tmpfs run /run
mkdir -p /run/lock /run/gluster
: >"$2/up"
trap '' CHLD
exec sleep infinity
"""


def lacking():
    """What this machine lacks for a laboratory."""
    if os.geteuid() != 0:
        return ["root"]
    missing = [it for it in NEEDED if not shutil.which(it, path=PATH)]
    if not os.path.exists("/dev/fuse"):
        missing.append("/dev/fuse")
    if not missing and subprocess.run([*UNSHARE, "true"], capture_output=True).returncode:
        missing.append("namespaces (unshare)")
    return missing


def inside(*words):
    """Runs this script again in namespaces of its own: its status. They end with it, and it with this process."""
    again = [*UNSHARE, sys.executable, "-B", os.path.abspath(sys.argv[0]), "--inside", *words]
    child = subprocess.Popen(again, preexec_fn=end_with_parent, env={**os.environ, "PATH": PATH})
    try:
        return child.wait()
    finally:
        end(child)


def children_of(pid):
    with contextlib.suppress(OSError), open(f"/proc/{pid}/task/{pid}/children", encoding="utf-8") as file:
        return [int(it) for it in file.read().split()]
    return []


def end(child):
    """Ends what it started in order, so that nothing of it is left, and else by a kill."""
    for it in children_of(child.pid):
        os.kill(it, signal.SIGTERM)
    with contextlib.suppress(subprocess.TimeoutExpired):
        child.wait(WAIT)
    child.kill()
    child.wait()


def sh(*words, **how):
    """What a command prints. It must end well."""
    done = subprocess.run(words, **{"capture_output": True, "text": True, "timeout": 300, **how})
    if done.returncode:
        raise RuntimeError(f"{' '.join(words)}: {done.returncode} {done.stdout[-600:]} {done.stderr[-600:]}")
    return done.stdout


def until(task, seconds, what, pause=0.1):
    """Waits until it is so; a RuntimeError where it is not in time."""
    found = served.until(task, seconds, pause)
    if not found:
        raise RuntimeError(f"not in {seconds} seconds: {what}")
    return found


class Disk:
    """A loop device over a sparse file. It goes with its last user, whatever ends that: its mount, or this process."""

    FREE, CONFIGURE, AUTOCLEAR = 0x4C82, 0x4C0A, 4  # LOOP_CTL_GET_FREE, LOOP_CONFIGURE, LO_FLAGS_AUTOCLEAR
    CONFIG = struct.Struct("=II 5Q 4I 64s64s32s 2Q 64x")  # struct loop_config of linux/loop.h

    def __init__(self, folder, name, size):
        self.path = os.path.join(folder, name)
        with open(self.path, "w+b") as file, open("/dev/loop-control", "rb") as control:
            file.truncate(size)
            self.device = f"/dev/loop{fcntl.ioctl(control, self.FREE)}"
            self.held = open(self.device, "r+b", buffering=0)
            numbers = [0] * 8 + [self.AUTOCLEAR]
            config = self.CONFIG.pack(file.fileno(), 0, *numbers, self.path.encode()[:63], b"", b"", 0, 0)
            fcntl.ioctl(self.held, self.CONFIGURE, config)

    def mounted(self):
        """The mount has it now."""
        self.held.close()


@contextlib.contextmanager
def network_of(pid):
    """Sockets that this thread makes meanwhile are of that process's network."""
    with open("/proc/thread-self/ns/net") as home, open(f"/proc/{pid}/ns/net") as there:
        if LIBC.setns(there.fileno(), NET):
            raise OSError(ctypes.get_errno(), "setns")
        try:
            yield
        finally:
            if LIBC.setns(home.fileno(), NET):
                os._exit(1)  # (nothing of this thread may go on in another's network)


class Machine:
    def __init__(self, number, folder):
        self.number, self.name, self.folder = number, "abc"[number - 1], os.path.join(folder, "abc"[number - 1])
        self.address, self.generation, self.first, self.shell = f"10.77.0.{number}", 0, None, None
        self.program, self.logs = None, os.path.join(self.folder, "log")
        os.mkdir(self.folder)

    def boot(self):
        """Starts its first process, its link and glusterd, which starts what it had."""
        self.generation += 1
        up = os.path.join(self.folder, "up")
        with contextlib.suppress(OSError):
            os.remove(up)
        words = [*UNSHARE, "sh", "-c", FIRST, "sh", f"room-{self.name}", self.folder]
        self.shell = subprocess.Popen(words, preexec_fn=end_with_parent, stdin=subprocess.DEVNULL)
        until(lambda: os.path.exists(up) or self.shell.poll() is not None, WAIT, f"{self.name} starts", 0.02)
        self.find_first()
        self.link_up()
        if os.path.exists(os.path.join(self.folder, WALL.lstrip("/"))):
            self.run(WALL)
        self.run("glusterd", "-p", "/run/glusterd.pid")
        return self

    def find_first(self):
        self.first = next(iter(children_of(self.shell.pid)), None)
        return self.first

    def link_up(self):
        self.link = f"v{self.name}{self.generation}"
        sh("ip", "link", "add", self.link, "type", "veth", "peer", "name", "eth0", "netns", str(self.first))
        sh("ip", "link", "set", self.link, "master", "bridge", "up")
        for words in (["addr", "add", f"{self.address}/24", "dev", "eth0"], ["link", "set", "eth0", "up"],
                      ["link", "set", "lo", "up"]):
            self.run("ip", *words)

    def words(self, *words):
        return ["nsenter", "-t", str(self.first), "-n", "-m", "-u", "-p", "--wd=/", *words]

    def run(self, *words, **how):
        return sh(*self.words(*words), **how)

    def status(self, *words, **how):
        """Status, output and faults of a command on this machine."""
        how = {"capture_output": True, "text": True, "timeout": 300, **how}
        done = subprocess.run(self.words(*words), **how)
        return done.returncode, done.stdout, done.stderr

    def start(self, *words, **how):
        return subprocess.Popen(self.words(*words), preexec_fn=end_with_parent, **how)

    def gluster(self, *words):
        """What it prints. While it has another change under way it does nothing, and is asked again."""
        words = ["gluster", "--mode=script", *words]
        return until(lambda: self.gluster_once(words), 60, f"{' '.join(words)}: another change is under way", 2)[0]

    def gluster_once(self, words):
        status, told, faults = self.status(*words)
        if status and not any(it in told + faults for it in BUSY):
            raise RuntimeError(f"{' '.join(words)}: {status} {told[-600:]} {faults[-600:]}")
        return None if status else (told,)

    def is_up(self):
        return self.shell is not None and self.shell.poll() is None

    def kill(self):
        """A stop of the whole machine: everything on it ends at once."""
        with contextlib.suppress(ProcessLookupError):
            os.kill(self.first, signal.SIGKILL)
        self.shell.kill()
        self.shell.wait()
        if self.program:
            self.program.wait()
            self.program = None
        subprocess.run(["ip", "link", "del", self.link], capture_output=True)  # (it may be gone with its other end)

    def cut(self):
        """From now on nothing of it gets out, and nothing in."""
        sh("ip", "link", "set", self.link, "nomaster")

    def join(self):
        sh("ip", "link", "set", self.link, "master", "bridge")

    def connect(self, port, seconds, host="127.0.0.1"):
        """A connection within this machine's network."""
        with network_of(self.first):
            return socket.create_connection((host, port), seconds)


class Lab:
    """The machines, all started; used with `with`."""

    def __init__(self, folder):
        disk, self.folder = Disk(folder, "disk", DISK), os.path.join(folder, "lab")
        sh("mkfs.ext4", "-q", disk.device)
        os.mkdir(self.folder)
        sh("mount", disk.device, self.folder)
        disk.mounted()
        os.remove(disk.path)
        sh("ip", "link", "set", "lo", "up")
        sh("ip", "link", "add", "bridge", "type", "bridge")
        sh("ip", "link", "set", "bridge", "up")
        sh("ip", "addr", "add", BRIDGE, "dev", "bridge")
        self.machines = self.made()

    def made(self):
        return [Machine(number, self.folder) for number in (1, 2, 3)]

    def __enter__(self):
        for it in self.machines:
            it.boot()
        return self

    def __exit__(self, *_):
        for it in self.machines:
            if it.is_up():
                it.kill()
        subprocess.run(["umount", "--lazy", self.folder], capture_output=True)
        sh("ip", "link", "del", "bridge")
