"""Machines of the laboratory with systemd and all that the first day puts there, and a power strip that fences them."""
import contextlib
import os
import shutil
import socket
import subprocess
import threading
import time

from lab import BRIDGE, PATH, UNSHARE, Machine, sh, until
from served import end_with_parent

STRIP = 7777  # the port of the power strip, at the bridge's address
# seconds between the answer that a machine is off and its start: one that is back before the manager has heard of it
# takes itself for fenced, and stays down
OFF = 3
OF_SYSTEMD = ("/lib/systemd/systemd", "systemctl", "dbus-daemon", "journalctl")
ENABLED = ("nginx", "pcsd", "corosync", "pacemaker", "ssh")  # what Debian's packages enable
# what the first process does: folders of its own over those of the machine below, few devices, and then systemd
FIRST = """
set -e
began=$(ls "$2")
mount --make-rprivate /
hostname "$1"
for it in /etc /var /usr/local /usr/sbin /root; do
    mkdir -p "$2/upper$it" "$2/work$it"
    mount -t overlay layer -o "lowerdir=$it,upperdir=$2/upper$it,workdir=$2/work$it" "$it"
done
mkdir -p "$2/dev" "$2/glusterd" "$2/srv" /var/lib/glusterd /var/log/journal
mount --bind "$2/glusterd" /var/lib/glusterd
mount --bind "$2/srv" /srv
mount -t tmpfs -o mode=755 dev "$2/dev"
for it in null zero full random urandom tty fuse; do
    : >"$2/dev/$it"
    mount --bind "/dev/$it" "$2/dev/$it"
done
mkdir "$2/dev/pts" "$2/dev/shm"
mount -t devpts -o newinstance,ptmxmode=666,mode=620 devpts "$2/dev/pts"
mount -t tmpfs shm "$2/dev/shm"
ln -s pts/ptmx "$2/dev/ptmx"
ln -s /proc/self/fd "$2/dev/fd"
for it in 0:stdin 1:stdout 2:stderr; do ln -s "/proc/self/fd/${it%:*}" "$2/dev/${it#*:}"; done
umount --recursive /sys
mount -t sysfs -o ro sysfs /sys
mount -t cgroup2 cgroup2 /sys/fs/cgroup
mount --rbind "$2/dev" /dev
mount --bind /proc/sys /proc/sys
mount -o remount,bind,ro /proc/sys
mount -t tmpfs run /run
mount -t tmpfs tmp /tmp
mkdir -p /run/lock
if [ ! "$began" ]; then
    : >/etc/fstab
    echo "$1" >/etc/hostname
    printf '%032x\\n' "$3" >/etc/machine-id
    rm -rf /etc/systemd/system/*.wants /etc/rc?.d /var/lib/pacemaker/cib/* /var/log/journal/*
    shift 3
    systemctl mask getty.target console-getty.service >/dev/null 2>&1
    systemctl enable "$@" >/dev/null 2>&1 || true
fi
exec env -i container=namespaces PATH=/usr/local/sbin:/usr/local/bin:/usr/sbin:/usr/bin:/sbin:/bin LANG=C.UTF-8 \\
    /lib/systemd/systemd --system --log-target=journal --show-status=false
"""
ENV = ["env", "-i", "HOME=/root", "LANG=C.UTF-8", "PYTHONDONTWRITEBYTECODE=1",
       "PATH=/usr/local/sbin:/usr/local/bin:/usr/sbin:/usr/bin:/sbin:/bin"]
# what pacemaker-fenced starts: it passes on what it is asked
AGENT = """#!/usr/bin/python3
import socket, sys
given = dict(line.strip().split("=", 1) for line in sys.stdin if "=" in line) if len(sys.argv) == 1 else {}
if given.get("action", "metadata") == "metadata":
    text = '<content type="string"/><shortdesc lang="en">x</shortdesc>'
    print('<?xml version="1.0" ?><resource-agent name="fence_laboratory" shortdesc="the power strip of the laboratory">'
          '<longdesc>x</longdesc><parameters>'
          + "".join(f'<parameter name="{it}" required="0">{text}</parameter>' for it in ("action", "ip", "port"))
          + "</parameters><actions>"
          + "".join(f'<action name="{it}"/>' for it in "on off reboot status list monitor metadata".split())
          + "</actions></resource-agent>")
    sys.exit(0)
with socket.create_connection((given["ip"], 7777), 10) as line:
    line.settimeout(100)
    line.sendall(f"{given['action']} {given.get('port', '')}\\n".encode())
    sys.exit(int(line.recv(10) or b"1"))
"""


def lacking():
    """What this machine lacks for such machines."""
    missing = [it for it in OF_SYSTEMD if not shutil.which(it, path=PATH)]
    return missing or ([] if "cgroup2" in filesystems() else ["cgroup2"])


def filesystems():
    with open("/proc/filesystems", encoding="utf-8") as file:
        return file.read().split()


class Groups:
    """The control groups of machines: what is left of them goes at the end."""

    def __init__(self, folder):
        self.mount = os.path.join(folder, "groups")
        os.mkdir(self.mount)
        sh("mount", "-t", "cgroup2", "cgroup2", self.mount)
        self.folder = os.path.join(self.mount, f"fileroom-standby-{os.urandom(4).hex()}")

    def of(self, name):
        path = os.path.join(self.folder, name)
        os.makedirs(path, exist_ok=True)
        return path

    def is_gone(self):
        subprocess.run(["find", self.folder, "-depth", "-type", "d", "-exec", "rmdir", "{}", ";"], capture_output=True)
        return not os.path.exists(self.folder)

    def end(self):
        until(self.is_gone, 30, "no control group is left", 0.2)
        subprocess.run(["umount", self.mount], capture_output=True)


class Booted(Machine):
    """A machine that systemd starts, with an address for Gluster and one in the network of those who ask."""

    def __init__(self, number, folder, groups):
        super().__init__(number, folder)
        self.group, self.lock = groups.of(self.name), threading.RLock()
        self.logs = os.path.join(self.folder, "upper", "var", "log")

    def first_words(self):
        return ["sh", "-c", 'echo $$ >"$0/cgroup.procs" && exec "$@"', self.group, *UNSHARE, "--ipc", "--cgroup",
                "sh", "-c", FIRST, "sh", self.name, self.folder, str(self.number), *ENABLED]

    def is_begun(self):
        with contextlib.suppress(OSError), open(f"/proc/{self.first}/comm", encoding="utf-8") as file:
            return file.read().strip() == "systemd"
        return False

    def boot(self):
        with self.lock:
            if self.is_up():
                return self
            self.generation, self.first = self.generation + 1, None
            how = {"stdin": subprocess.DEVNULL, "stdout": subprocess.DEVNULL, "stderr": subprocess.DEVNULL}
            self.shell = subprocess.Popen(self.first_words(), preexec_fn=end_with_parent, **how)
            until(lambda: self.find_first() and self.is_begun(), 120, f"{self.name} starts", 0.05)
            self.link_up()
            self.run("ip", "addr", "add", f"192.0.2.{self.number}/24", "dev", "eth0")
            return self

    def kill(self):
        with self.lock:
            if self.is_up():
                super().kill()

    def words(self, *words):
        return super().words(*ENV, *words)

    def is_started(self):
        return self.status("systemctl", "is-system-running", "--wait")[1].strip() in ("running", "degraded")


class Strip:
    """What fences: `off a`, `on a`, `reboot a`, `status a`, one connection each. `asked` is what it was asked."""

    def __init__(self, machines):
        self.machines, self.asked, self.works = {it.name: it for it in machines}, [], True
        self.listener = socket.create_server((BRIDGE.partition("/")[0], STRIP))
        threading.Thread(target=self.serve, daemon=True).start()

    def serve(self):
        """(In this one thread: a machine ends with the thread that started it.)"""
        with contextlib.suppress(OSError):
            while True:
                self.one(self.listener.accept()[0])

    def one(self, line):
        action = name = ""
        with contextlib.suppress(OSError), line:
            action, name = (line.recv(100).decode().split() + [""])[:2]
            line.sendall(str(self.does(action, self.machines.get(name))).encode())
        if action == "reboot" and self.works and name in self.machines:
            time.sleep(OFF)
            self.machines[name].boot()

    def does(self, action, machine):
        """The status that the agent ends with."""
        if action == "monitor" or not machine:
            return 0 if action == "monitor" else 1
        if not self.works:
            return 1
        if action != "status":
            self.asked.append((action, machine.name))
        with machine.lock:
            if action in ("off", "reboot"):
                machine.kill()
            if action == "on" and not machine.is_up():
                machine.boot()
            return 2 if action == "status" and not machine.is_up() else 0
