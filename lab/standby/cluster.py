"""The lines of fileroom-standby's man page, done as they stand on three machines with systemd; then Pacemaker takes the
room over, and people who ask through the front, by https at the address that moves, notice a pause."""
import os
import re
import shutil
import socket
import ssl
import subprocess
import time

import booted
from lab import BRIDGE, PATH, Lab, sh, until
from load import DELAY, USERS, Load
from nginx import certified, login
from served import PROGRAM, first_answer, message, text_of
from standby import AS_USER, BRICK, DB, NAME, ROSTER, TOP, kept_words, look_at_tables
from typed import as_told

NEEDED = ("pcs", "pacemakerd", "corosync", "crm_mon", "nginx", "openssl", "sshd", "ssh-keygen", "setpriv",
          "modprobe", "fuser", "curl", "logrotate")
PAGE = os.path.join(TOP, "service", "standby", "fileroom-standby.1")
ROFF = {r"\-": "-", r"\(aq": "'", r"\(ti": "~", r"\(ha": "^", r"\e": "\\"}
INSTALLED = ("client", "dav", "front", "page", "service", "signin")  # what `make install` takes from
BOARD = "fence_ipmilan ip=.. username=.. password_script=/etc/fileroom/fence-password"
INSTEAD = {BOARD: f"fence_laboratory ip={BRIDGE.partition('/')[0]}"}
ADDRESS, SITE = "192.0.2.100", "room.example"
CERT = f"/etc/letsencrypt/live/{SITE}"
ROOM, GROUP = f"fileroom-standby@{NAME}", f"{NAME}-room"
WELL = f"{NAME}: all is as it must be; "
COPIED = f"for the machines of {NAME}: fileroom-standby copy {NAME} | sh"
TAKEN, BACK = 300, 600  # seconds: far more than it takes, on a machine that others use; less than ten minutes, after
# which Gluster by itself looks for copies that are behind
UNFENCED = 40  # seconds in which a machine that could be fenced would have been
ATTEMPT = 5  # seconds that a client waits for one answer
# `pcs`, but that it waits five minutes for the daemon of another machine, and not one: a loaded machine is slow
PATIENT_PCS = """#!/usr/bin/python3 -Es
import sys
from pcs import settings
settings.default_request_timeout = 300
from pcs import app
sys.exit(app.main(sys.argv[1:]))
"""
LISTENS = "import socket, sys; socket.create_connection((sys.argv[1], 2224), 5)"  # (systemd does not wait for that)
PLACED = re.compile(r"\.B On (each|the first) machine")


def say(text):
    print(f"standby: cluster: {text}", flush=True)


def lacking():
    return [it for it in NEEDED if not shutil.which(it, path=PATH)] + booted.lacking()


def commands(heading):
    """Each command of a part of the man page, with where it is done and the lines that it is to print."""
    part = re.split(r"(?m)^\.S[HS] ", text_of(PAGE).partition(f"\n.SS {heading}\n")[2])[0]
    found, where, shown = [], "first", False
    for line in plain(part).splitlines():
        placed = PLACED.match(line)
        where = placed[1] if placed else where
        if line in (".EX", ".EE"):
            shown = line == ".EX"
        elif shown and line.startswith("#> "):
            found[-1][2].append(line[3:])
        elif shown and not line.startswith("apt-get "):
            found.append((where, line, []))
    return found


def plain(roff):
    """What lines of a man page show."""
    return re.sub(r"\\(?:\(..|.)", lambda it: ROFF[it[0]], roff)


def does(machine, line, want, tally):
    """Does one line, in a shell that has the variables that the ones before it set on that machine."""
    for stands, told in INSTEAD.items():
        line = line.replace(stands, told)
    script = f"touch /run/set; . /run/set\n{line}\n"
    if re.match(r"\w+=", line):
        script += f"declare -p {line.partition('=')[0]} >>/run/set\n"
    status, told, faults = machine.status("bash", "-c", f"cd; {script}", timeout=900)
    said = told.splitlines()
    due = as_told(said, want)
    tally.differs(f"{machine.name}: {line}", (status, said, faults[-400:] if status or due != said else ""),
                  (0, due, ""))


class BootedLab(Lab):
    """The laboratory with machines that systemd starts, and their power strip."""

    def __init__(self, folder):
        super().__init__(folder)
        sh("ip", "addr", "add", "192.0.2.254/24", "dev", "bridge")
        self.strip = booted.Strip(self.machines)

    def made(self):
        self.groups = booted.Groups(self.folder)
        return [booted.Booted(number, self.folder, self.groups) for number in (1, 2, 3)]

    def __exit__(self, *why):
        self.strip.listener.close()
        for it in self.machines:
            it.kill()
        self.groups.end()
        super().__exit__(*why)


class People(Load):
    """The load, by the front: what that answers by itself is asked again. `reach` makes a connection."""

    attempt = ATTEMPT
    NO_ANSWERS = (429, 502, DELAY, 504)

    def __init__(self, passwords, reach, seed):
        super().__init__(lambda: self, seed)
        self.passwords, self.reach = passwords, reach

    def connect(self, _, seconds):
        return self.reach(seconds)

    def message(self, user, target, body):
        fields = [f"host: {SITE}", login(user, self.passwords[user])]
        return message(None, "POST", f"/rooms/{NAME}{target}", body, fields=fields)

    def opens_as(self, user, password):
        """The status with which another user's first request is answered."""
        self.passwords[user] = password
        return self.once(self.message(user, f"/v1/sessions/{'c' * 32}", b'{"slots":1}')).status

    def is_answer(self, got):
        return got.status not in self.NO_ANSWERS

    def is_right(self, got, want):
        answer, _ = first_answer(want)
        return (got.status, got.body) == (answer.status, answer.body)


def by_https(cert):
    """Connections to the address that moves."""
    context = ssl.create_default_context(cafile=cert)
    return lambda seconds: context.wrap_socket(socket.create_connection((ADDRESS, 443), seconds), server_hostname=SITE)


class Cluster:
    """Three machines, with the first day's steps 1 and 2, and on the first one its room, with users."""

    def __init__(self, lab, folder, tally):
        self.lab, self.machines, self.tally = lab, lab.machines, tally
        self.cert, key = certified(os.path.join(folder, "tls"), f"DNS:{SITE}")
        for it in self.machines:
            until(it.is_started, TAKEN, f"{it.name} is started")
            self.prepare(it)
        for it in self.machines:
            until(lambda it=it: it.status("python3", "-c", LISTENS, it.address)[0] == 0, TAKEN,
                  f"pcsd of {it.name} listens")
        first = self.machines[0]
        first.run("mkdir", "-p", CERT)
        for name, path in ("fullchain.pem", self.cert), ("privkey.pem", key):
            first.run("sh", "-c", 'cat >"$1"', "sh", f"{CERT}/{name}", input=text_of(path))
        self.login_by_ssh()
        self.passwords = {"ann": self.admin(first, "room", "add", NAME, "ann", "eng")}
        for user in ("bob", "eng"):
            self.passwords[user] = self.admin(first, "user", "add", NAME, user, *USERS[user])

    @staticmethod
    def admin(machine, *words):
        return machine.run("fileroom-admin", "-q", *words).strip()

    def prepare(self, machine):
        """Steps 1 and 2 of the first day. (A machine sees no folder below /tmp but its own.)"""
        there = os.path.join(machine.folder, "srv")
        for it in INSTALLED:
            shutil.copytree(os.path.join(TOP, it), os.path.join(there, "top", it))
        shutil.copy(PROGRAM, os.path.join(there, "top", "fileroom"))
        self.install(machine)
        machine.run("rm", "-f", "/etc/nginx/sites-enabled/default")
        machine.run("systemd-sysusers", "/usr/local/lib/sysusers.d/fileroom.conf")
        machine.run("systemctl", "daemon-reload")
        for path, text in ("/usr/sbin/fence_laboratory", booted.AGENT), ("/usr/local/sbin/pcs", PATIENT_PCS):
            machine.run("sh", "-c", 'cat >"$0"; chmod 755 "$0"', path, input=text)

    @staticmethod
    def install(machine):
        machine.run("env", "FILEROOM=/srv/top/fileroom", "/srv/top/service/install", "", "/usr/local")

    def login_by_ssh(self):
        """One key for root on all, who has logged in before."""
        first = self.machines[0]
        first.run("sh", "-c", "rm -rf /root/.ssh; mkdir -m 700 /root/.ssh; ssh-keygen -q -t ed25519 -N '' -f "
                  "/root/.ssh/id_ed25519; cp /root/.ssh/id_ed25519.pub /root/.ssh/authorized_keys; "
                  "echo 'StrictHostKeyChecking accept-new' >/root/.ssh/config")
        packed = subprocess.run(first.words("tar", "-C", "/root", "-cf", "-", ".ssh"), capture_output=True).stdout
        for it in self.machines[1:]:
            subprocess.run(it.words("sh", "-c", "rm -rf /root/.ssh; tar -C /root -xf -"), input=packed, check=True)

    def do(self, heading):
        for where, line, want in commands(heading):
            for it in self.machines if where == "each" else self.machines[:1]:
                does(it, line, want, self.tally)

    def serving(self):
        """The machine on which the room's program runs, or None."""
        return next((it for it in self.machines if self.serves(it)), None)

    @staticmethod
    def serves(machine):
        return machine.is_up() and machine.status("systemctl", "is-active", "-q", ROOM)[0] == 0

    def others(self, machine):
        return [it for it in self.machines if it is not machine]

    def check(self, machine):
        status, told, faults = machine.status("fileroom-standby", "check", NAME, timeout=200)
        return status, told.splitlines() + faults.splitlines()

    def need_well(self, name):
        """Each machine is up, and its `check` finds nothing any more: seconds."""
        begin = time.monotonic()
        for it in self.machines:
            until(it.is_up, BACK, f"{name}: {it.name} is switched on again")
            try:
                until(lambda it=it: self.check(it)[0] == 0, TAKEN, "check finds nothing", 1)
            except RuntimeError:
                pass
            status, told = self.check(it)
            self.tally.differs(f"{name}: check on {it.name}", (status, told[0][:len(WELL)]), (0, WELL))
        return time.monotonic() - begin


def need_answers(load, count, seconds, name):
    """Seconds until so many more requests were answered."""
    begin, before = time.monotonic(), len(load.times)
    until(lambda: len(load.times) >= before + count or load.fault, seconds, name, 0.02)
    return time.monotonic() - begin


def longest(load, since):
    return max(done - begun for begun, done, _ in load.times if done >= since)


def taken_over(cluster, load, tally, kind):
    """The machine that serves dies in the middle of the load: it is fenced, and another one goes on."""
    dead, asked = cluster.serving(), len(cluster.lab.strip.asked)
    load.start()
    need_answers(load, 20, TAKEN, "a load")
    begin, clock = time.monotonic(), time.time()
    if kind == "cut off":
        dead.cut()
    else:
        dead.kill()
    time.sleep(0.5)
    target = until(lambda: next((it for it in cluster.others(dead) if cluster.serves(it)), None), TAKEN,
                   f"{kind}: another machine has the room", 0.2)
    need_answers(load, 30, TAKEN, f"{kind}: the room goes on")
    load.stop()
    tally.need(load.fault is None, f"{kind}: {load.fault!r}")
    tally.differs(f"{kind}: it was fenced", ("reboot", dead.name) in cluster.lab.strip.asked[asked:], True)
    load.repeat_all()
    load.close_line()
    pause = longest(load, begin)
    seconds = cluster.need_well(kind)
    told = target.run("journalctl", "-u", f"fileroom-rejoin@{NAME}", "-o", "cat", "--since", f"@{clock:.0f}")
    say(f"{kind}: Pacemaker fenced {dead.name}, and {target.name} went on; the longest request took {pause:.1f} "
        f"seconds; the program was started again {told.count('the program is started again')} times once "
        f"{dead.name} was back; all was as it must be after {seconds:.0f} seconds")


def goes_on(cluster, load, tally, name):
    """The room is answered again, each slot's last request as before, and then all is as it must be."""
    load.start()
    need_answers(load, 20, TAKEN, f"{name}: the room is answered")
    load.stop()
    tally.need(load.fault is None, f"{name}: {load.fault!r}")
    load.repeat_all()
    load.close_line()
    cluster.need_well(name)


def on_purpose(cluster, load, tally):
    """A user is added, what all have alike is copied, and the room is moved: the user gets in there."""
    here = cluster.serving()
    there = cluster.others(here)[0]
    load.start()
    need_answers(load, 20, TAKEN, "a load")
    told = here.run("fileroom-admin", "user", "add", NAME, "kim", "staff").splitlines()
    tally.differs("user add tells what is to be done", told[-1], COPIED)
    password = told[1].rpartition(" ")[2]
    does(here, f"fileroom-standby copy {NAME} | sh", [], tally)
    begin = time.monotonic()
    (_, line, _), = commands("A takeover on purpose")
    does(here, line.replace(f"{NAME} b", f"{NAME} {there.name}"), [], tally)
    tally.differs("it is moved", cluster.serves(there), True)
    need_answers(load, 30, TAKEN, "it goes on there")
    load.stop()
    tally.need(load.fault is None, f"on purpose: {load.fault!r}")
    tally.differs("the new user, there", load.opens_as("kim", password), 200)
    say(f"moved on purpose: the longest request took {longest(load, begin):.1f} seconds")


def walls(cluster, tally):
    """No user of a machine, and nobody else, reaches Gluster's daemon or copies, or the room; the three do."""
    ask = "import socket, sys; sys.exit(socket.socket().connect_ex((sys.argv[1], int(sys.argv[2]))) and 1)"
    a, b, _ = cluster.machines
    told = a.gluster("volume", "status", NAME)
    ports = [24007, *map(int, re.findall(r"(?m)^Brick 10\.77\.0\.1:.*?(\d{5})", told))]
    tally.differs("ports of a copy", len(ports), 2)
    for port in ports:
        for machine, address in (a, a.address), (a, "127.0.0.1"), (b, a.address):
            for user, want in ("nobody", 1), ("root", 0):
                words = ["setpriv", "--reuid", user, "--clear-groups", "python3", "-c", ask, address, str(port)]
                tally.differs(f"{user} of {machine.name} at {address}:{port}", machine.status(*words)[0], want)
        for address in a.address, ADDRESS:
            tally.differs(f"a stranger at {address}:{port}", reaches(address, port), False)
    tally.differs("a user reads no copy", a.status("setpriv", "--reuid", "nobody", "ls", f"/srv/fileroom/{NAME}")[0], 2)
    without_walls(cluster, tally)


def without_walls(cluster, tally):
    """Without the wall a stranger reaches Gluster, and the volume's own word, auth.allow, still keeps them out."""
    a = cluster.machines[0]
    for it in cluster.machines:
        it.run("nft", "delete", "table", "inet", "fileroom")  # (without the unit there is no room)
    tally.differs("without the wall a stranger is there", reaches(a.address, 24007), True)
    tally.differs("a stranger's mount", mounts(cluster.lab.folder), False)
    a.gluster("volume", "set", NAME, "auth.allow", "*")
    tally.differs("a stranger's mount without auth.allow", mounts(cluster.lab.folder), True)
    a.run("fileroom-standby", "set", NAME)
    for it in cluster.machines:
        it.run("systemctl", "reload", "fileroom-ports")


def mounts(folder):
    """Whether somebody outside mounts the volume and sees what is in it."""
    at = os.path.join(folder, "stranger")
    os.makedirs(at, exist_ok=True)
    server = f"--volfile-server={BRIDGE.rpartition('.')[0]}.1"
    subprocess.run(["timeout", "60", "glusterfs", server, f"--volfile-id={NAME}", "--log-file=/dev/null", at])
    done = subprocess.run(["timeout", "60", "ls", at], capture_output=True, text=True)
    subprocess.run(["umount", "--lazy", at], capture_output=True)
    return done.returncode == 0 and "room.db" in done.stdout


def reaches(address, port):
    """Whether somebody outside connects to that."""
    with socket.socket() as line:
        line.settimeout(5)
        return line.connect_ex((address, port)) == 0


def backed_up(cluster, load, tally):
    """The nightly backup, where the room is and where it is not; the room goes on behind it."""
    here, count = cluster.serving(), lambda it: len(it.status("ls", f"/var/backups/fileroom/{NAME}")[1].split())
    for it in cluster.machines:
        before = count(it)
        tally.differs(f"a backup on {it.name}", it.status("systemctl", "start", f"fileroom-backup@{NAME}")[0], 0)
        tally.differs(f"backups on {it.name}", count(it) - before, int(it is here))
    load.start()
    need_answers(load, 20, TAKEN, "it goes on behind a backup")
    load.stop()
    load.close_line()
    cluster.need_well("behind a backup")
    for it in cluster.machines:
        told = it.status("fileroom-admin", "check")[1].splitlines()
        told[:1] = [told[0][:20]]  # (the certificate is of two days)
        tally.differs(f"fileroom-admin check on {it.name}", told,
                      ["the certificate expi", "    fileroom-admin tls, with a new one (docs/RUNNING.md, HTTPS)"])


FINDINGS = {
    "pcs property set stonith-enabled=false": "fencing is off",
    "pcs property set no-quorum-policy=ignore": "it goes on without a quorum",
    f"pcs resource disable {GROUP} --wait": "the room is told to rest",
    "for it in a b c; do pcs stonith disable fence-$it; done": "no fencing device runs",
}
MENDED = ["pcs property set stonith-enabled=true no-quorum-policy=stop",
          "for it in a b c; do pcs stonith enable fence-$it; done", f"pcs resource enable {GROUP} --wait"]


def found(cluster, tally):
    """What `check` says where the manager is not as it must be."""
    first = cluster.machines[0]
    for line, words in FINDINGS.items():
        does(first, line, [], tally)
        status, told = cluster.check(first)
        tally.differs(f"check: {words}", (status, any(words in it for it in told)), (1, True))
    for line in MENDED:
        does(first, line, [], tally)
    cluster.need_well("mended")


def looked_at(cluster, load, tally, name):
    """The program's reports, and the tables, are the model's."""
    here = cluster.serving()
    load.close_line()
    does(here, f"pcs resource disable {GROUP} --wait", [], tally)
    look_inside(here, load, tally, name)
    does(here, f"pcs resource enable {GROUP} --wait", [], tally)


def look_inside(machine, load, tally, name):
    for kind, want in load.model.reports().items():
        told = machine.run(*AS_USER, "/usr/local/bin/fileroom", "report", DB, ROSTER, kind).splitlines(True)
        tally.differs(f"{name}: report {kind}", "".join(without_trashes(told)), want)
    look_at_tables(machine, load, tally, name)


def without_trashes(lines):
    """What the load made: neither kim's rights, nor the trashes that `fileroom-admin` made, with their entries."""
    is_left_out = False
    for it in lines:
        if not it.startswith("  "):
            is_left_out = re.search(r" /trash(/|$)", it.rstrip()) is not None
        if not is_left_out and " kim " not in it:
            yield it


def alone(cluster, load, tally):
    """Two machines die at once: the third stops what it has, and begins nothing; one more, and all goes on. (They fence
    the last, which begins again by that.)"""
    here, asked = cluster.serving(), len(cluster.lab.strip.asked)
    for it in cluster.others(here):
        it.kill()
    until(lambda: not cluster.serves(here), TAKEN, "one machine alone stops the room", 0.5)
    time.sleep(5)
    tally.differs("and begins nothing, and fences nobody", (cluster.serves(here), cluster.lab.strip.asked[asked:]),
                  (False, []))
    cluster.others(here)[0].boot()
    until(cluster.serving, BACK, "with a quorum it goes on", 0.5)
    goes_on(cluster, load, tally, "two died")


def unfenced(cluster, load, tally):
    """A machine dies, and so does what fences it: nothing begins elsewhere, until somebody says that it is off."""
    dead = cluster.serving()
    other = cluster.others(dead)[0]
    cluster.lab.strip.works = False
    dead.kill()
    time.sleep(UNFENCED)
    is_unclean = "UNCLEAN" in other.run("pcs", "status")
    tally.differs("nothing begins elsewhere", (cluster.serving(), is_unclean), (None, True))
    does(other, f"pcs stonith confirm {dead.name} --force", [f"Node: {dead.name} confirmed fenced"], tally)
    until(cluster.serving, TAKEN, "another has the room once somebody said so", 0.5)
    cluster.lab.strip.works = True
    dead.boot()
    goes_on(cluster, load, tally, "switched off by hand")


def a_new_disk(cluster, load, tally):
    """A machine dies and comes back with an empty disk, by the lines for it: its copy becomes whole."""
    broken = cluster.machines[1]
    load.start()
    need_answers(load, 20, TAKEN, "a load")
    with broken.lock:  # (so it is not switched on meanwhile)
        broken.kill()
        shutil.rmtree(os.path.join(broken.folder, "srv", "fileroom"))
    until(broken.is_up, BACK, "it is switched on again")
    until(broken.is_started, BACK, "it is started")
    need_answers(load, 20, TAKEN, "the room goes on without that copy")
    load.stop()
    tally.need(load.fault is None, f"a new disk: {load.fault!r}")
    until(lambda: "is away" in str(cluster.check(broken)), BACK, "check tells that a copy is away", 1)
    for _, line, want in commands("The day it comes back"):
        does(broken, line, want, tally)
    goes_on(cluster, load, tally, "a new disk")
    sums = [it.run("sh", "-c", f"cd {BRICK} && sha256sum room.db room.db-wal") for it in cluster.machines]
    tally.differs("the new copy is the others'", sums[1] == sums[0] == sums[2], True)


def a_new_version(cluster, load, tally):
    """The program is installed anew on each machine, and the room goes on with it."""
    for it in cluster.machines:
        cluster.install(it)
    here = cluster.serving()
    told = [f"the front has the files of this program, and the rooms {NAME}", COPIED]
    does(here, "fileroom-admin front", told, tally)
    does(here, f"systemctl restart {ROOM}", [], tally)
    does(here, f"fileroom-standby copy {NAME} | sh", [], tally)
    goes_on(cluster, load, tally, "a new version")


def back_to_one(cluster, load, tally):
    """The lines for one machine again: the room goes on there, with its sessions."""
    load.close_line()
    cluster.do("Back to one machine")
    for it in cluster.machines[1:]:
        it.kill()
    first = cluster.machines[0]
    first.run("ip", "addr", "add", f"{ADDRESS}/24", "dev", "eth0")
    load.repeat_all()
    load.start()
    need_answers(load, 30, TAKEN, "one machine alone")
    load.stop()
    tally.need(load.fault is None, f"one machine again: {load.fault!r}")
    load.close_line()
    first.run("systemctl", "stop", f"fileroom@{NAME}")
    look_inside(first, load, tally, "one machine again")
    begun_again(first, tally)


def begun_again(machine, tally):
    """A room that a fault ends again and again is tried again behind a backup, which fails, too."""
    does(machine, f"mv {DB} /root/room.db; systemctl start fileroom@{NAME}", [], tally)
    until(lambda: state_of(machine) == "activating", TAKEN, "it has no room")
    tally.differs("a backup of no room", machine.status("systemctl", "start", f"fileroom-backup@{NAME}")[0], 1)
    does(machine, f"mv /root/room.db {DB}", [], tally)
    until(lambda: state_of(machine) == "active", TAKEN, "it is started once the room is there")


def state_of(machine):
    return machine.status("systemctl", "is-active", f"fileroom@{NAME}")[1].strip()


def moved_there(cluster, tally, dice):
    """A room that people use on one machine is moved onto the volume by the lines, and begins there."""
    first = cluster.machines[0]
    load = People(cluster.passwords, lambda seconds: first.connect(8080, seconds), dice.random()).begin()
    for _ in range(50):
        load.step()
    load.close_line()
    cluster.do("The volume")
    words = f"echo >/root/none.xml; exec /usr/local/share/fileroom/standby/pacemaker /root/none.xml {NAME} {ADDRESS}/24"
    tally.differs("Pacemaker's lines without a fencing device", first.status("sh", "-c", words)[0], 1)
    cluster.do("The manager")
    load.reach = by_https(cluster.cert)
    load.repeat_all()
    return load


def play(folder, tally, dice, kinds):
    begin = time.monotonic()
    with BootedLab(folder) as lab:
        cluster = None
        try:
            cluster = Cluster(lab, folder, tally)
            say(f"three machines with systemd after {time.monotonic() - begin:.0f} seconds")
            load = moved_there(cluster, tally, dice)
            cluster.need_well("as the lines leave it")
            say(f"by the lines after {time.monotonic() - begin:.0f} seconds")
            walls(cluster, tally)
            for kind in kinds:
                taken_over(cluster, load, tally, kind)
            on_purpose(cluster, load, tally)
            backed_up(cluster, load, tally)
            found(cluster, tally)
            looked_at(cluster, load, tally, "cluster")
            a_new_version(cluster, load, tally)
            a_new_disk(cluster, load, tally)
            alone(cluster, load, tally)
            unfenced(cluster, load, tally)
            back_to_one(cluster, load, tally)
            say(f"{load.answered} answers, {load.again} after being sent again, {load.repeats} repeats")
        except Exception:
            say(f"what each machine says is kept in {kept_words(lab.machines)}")
            raise
