"""A room with a standby: what is left where its volume cannot be made, what reaches another host, how its room rests
for a backup, and what `check` finds, by what the others say."""
import os
import re
import runpy
import subprocess
import time

import pytest
from nginx import PATH
from served import HANGS, put_file, text_of

from .contents import SERVICE, below, said
from .test_backup import stand_in

TOOL = os.path.join(SERVICE, "standby/fileroom-standby")


@pytest.fixture
def etc(folder):
    for it in "fileroom/plans.toml", "nginx/fileroom/users":
        os.makedirs(os.path.dirname(os.path.join(folder, "etc", it)))
        with open(os.path.join(folder, "etc", it), "w", encoding="utf-8") as file:
            file.write(str([*range(20000)]))
    return os.path.join(folder, "etc")


def test_a_volume_that_cannot_be_made(folder, etc):
    """No file says there is a standby."""
    path = stand_in(folder, "gluster", 'case "$*" in *create*) exit 1 ;; *) echo Connected Connected Connected ;; esac')
    hosts = [f"127.0.0.{it}" for it in (2, 3, 4)]
    assert said(TOOL, "make", "plans", *hosts, ETC=etc, PATH=path)[0] == 1
    assert os.listdir(os.path.join(etc, "fileroom")) == ["plans.toml"]


def test_files_go_to_each_other_host(folder, etc):
    """Also to one whose address is the beginning of another's, or its end."""
    put_file(os.path.join(etc, "fileroom/plans.hosts"), "10.0.0.1\n10.0.0.12\n110.0.0.12\n")
    path = stand_in(folder, "ip", "echo '2: eth0    inet 10.0.0.12/24 brd 10.0.0.255 scope global eth0'")
    lines = said(TOOL, "copy", "plans", ETC=etc, PATH=path)[1]
    assert re.findall(r"ssh root@(\S+)", lines) == ["10.0.0.1", "110.0.0.12"]


def test_words_of_others_that_are_no_text(folder):
    """Any process of the machine may have them."""
    server = os.path.join(folder, "glusterfs")
    os.symlink("/bin/sh", server)
    mount = runpy.run_path(TOOL)["Mount"]("plans")
    odd, its = (subprocess.Popen([server, "-c", "read line", "sh", it], stdin=subprocess.PIPE)
                for it in (b"\xff", mount.folder))
    with odd, its:
        assert mount.words()[-2] == mount.folder


@pytest.mark.parametrize("cut, is_whole", [("head -c 20000", False), ("cat", True)])
def test_files_reach_another_host_whole(folder, etc, cut, is_whole):
    other, logs, before = os.path.join(folder, "other"), os.path.join(folder, "logs"), "nginx/fileroom/signin/a.toml"
    for it in os.path.dirname(os.path.join(other, before)), os.path.join(logs, "nginx"):
        os.makedirs(it)
    put_file(os.path.join(other, before), "")  # (of a directory that is asked no more)
    put_file(os.path.join(etc, "fileroom/plans.hosts"), "localhost\n127.0.0.2\n")
    there = f"s,/etc,{other},g; s,/var/log,{logs},g; s, -g [a-z-]*,,"
    stand_in(folder, "systemctl", f'echo "$*" >>{folder}/told')
    ssh = stand_in(folder, "ssh", f'{cut} | sh -c "$(echo "$2" | sed "{there}")" 2>/dev/null')
    how = {"ETC": etc, "PATH": f"{folder}/stand-in-systemctl:{ssh}"}
    said("sh", "-c", said(TOOL, "copy", "plans", **how)[1].replace("-C /etc --ex", f"-C {etc} --ex"), **how)
    assert below(other) == (below(etc) if is_whole else [before])
    if is_whole:
        assert text_of(f"{folder}/told").splitlines()[-1] == "try-restart fileroom-standby@plans nginx fileroom-signin"
        assert [oct(os.stat(os.path.join(logs, it)).st_mode & 0o777) for it in (
            "fileroom", "nginx/fileroom-logins.log")] == ["0o710", "0o640"]


class Manager:
    """Pacemaker's own tools, over a file, with a room that has ended."""

    def __init__(self, folder):
        self.cib, self.ran = os.path.join(folder, "cib.xml"), os.path.join(folder, "fileroom-backup-plans")
        os.makedirs(os.path.join(folder, "fileroom"))
        with open(os.path.join(folder, "fileroom", "plans.hosts"), "w", encoding="utf-8") as file:
            file.write("10.0.0.1\n")
        stand_in(folder, "systemctl", 'if [ "$2" = -q ]; then exit 1; fi; echo active')
        stand_in(folder, "crm_resource", f'echo "$*" >>{folder}/waited')
        path = f"{folder}/stand-in-systemctl:{folder}/stand-in-crm_resource:{PATH}"
        self.env = {**os.environ, "ETC": folder, "RUN": folder, "CIB_file": self.cib, "PATH": path, "TZ": "XXX5"}
        put_file(self.cib, self.does("cibadmin", "--empty"))
        off = "<nvpair id='s' name='stonith-enabled' value='false'/>"
        self.does("cibadmin", "--create", "-o", "resources", "--xml-text", "<group id='plans'><primitive "
                  "id='plans-room' class='ocf' provider='pacemaker' type='Dummy'/></group>")
        self.does("cibadmin", "--modify", "--allow-create", "-o", "crm_config", "--xml-text",
                  f"<cluster_property_set id='p'>{off}</cluster_property_set>")
        self.does("crm_simulate", "-x", self.cib, "-u", "a", "-q", "true", "-O", f"{self.cib}.new")
        os.rename(f"{self.cib}.new", self.cib)

    def does(self, *words):
        done = subprocess.run(words, env=self.env, capture_output=True, text=True, timeout=HANGS)
        assert done.returncode == 0, done.stderr
        return done.stdout + done.stderr

    def starts(self, minutes=0, since=None):
        """Whether it would start the room so much later."""
        at = time.strftime("%Y-%m-%d %H:%M:%SZ", time.gmtime((since or time.time()) + 60 * minutes))
        return "Start      plans-room" in self.does("crm_simulate", "-x", self.cib, "-S", "-t", at)


def test_at_rest_for_its_backup(folder):
    """By a rule of Pacemaker's: once it ends, or half an hour is over, as where the machine died meanwhile, the manager
    starts the room. (This machine's clock is five hours behind.)"""
    it = Manager(folder)
    assert (it.starts(), os.path.exists(it.ran)) == (True, False)
    for night in range(2):
        before = time.time()
        assert it.does(f"{SERVICE}/fileroom-rest", "plans") == ""
        after = time.time()
        assert (it.starts(0, after), it.starts(29, before), it.starts(31, after)) == (False, False, True)
        assert text_of(it.cib).count("<rule ") == 1
        if night == 0:
            os.remove(it.ran)  # (the machine died, and what it had in /run is gone)
    assert it.does(f"{SERVICE}/fileroom-rest", "--end", "plans") == ""
    assert (it.starts(), os.path.exists(it.ran), "rule" in text_of(it.cib)) == (True, False, False)
    assert text_of(f"{folder}/waited").splitlines() == ["--wait --timeout=60"] * 3  # (until it has stopped, or runs)


# What `check` finds

HOSTS = "10.0.0.1", "10.0.0.2", "10.0.0.3"
VOLUME = ("<c><opRet>0</opRet><volume><statusStr>Started</statusStr><typeStr>Replicate</typeStr><replicaCount>3"
          "</replicaCount><brickCount>3</brickCount><arbiterCount>0</arbiterCount></volume></c>")
COPY = "<brick><name>{}:/srv</name><status>Connected</status><numberOfEntries>0</numberOfEntries></brick>"
CIB = ("<cib><crm_config><nvpair name='no-quorum-policy' value='stop'/></crm_config><group id='plans'>"
       "<primitive id='plans-room' type='fileroom-standby@plans'/></group></cib>")
RUNS = ("<p><current_dc with_quorum='true'/><resource id='f' resource_agent='stonith:fence_x' active='true' "
        "failed='false'/><resource id='plans-room' resource_agent='x' active='true'/></p>")


def found_by_check(folder, etc, name, old, new):
    """With what each of the others says, but for one text of one of them."""
    told = {line.split()[0]: line.split()[1] for line in text_of(os.path.join(SERVICE, "standby/volume")).splitlines()
            if line.strip() and line[0] != "#"} | {"auth.allow": ",".join(HOSTS)}
    says = {"info": VOLUME, "get": "Option Value\n-- --\n" + "".join(f"{it}  {its}\n" for it, its in told.items()),
            "heal": f"<c><opRet>0</opRet>{''.join(map(COPY.format, HOSTS))}</c>",
            "list": "UUID Hostname State\n" + "".join(f"a {it} Connected\n" for it in HOSTS),
            "nft": f"elements = {{ {', '.join(HOSTS)} }}", "cibadmin": CIB, "crm_mon": RUNS}
    assert name == "all" or says[name].count(old) >= 1
    for it, text in says.items():
        put_file(os.path.join(folder, it), text.replace(old, new, 1) if it == name else text)
    put_file(os.path.join(etc, "fileroom/plans.hosts"), "".join(f"{it}\n" for it in HOSTS))
    stand_in(folder, "gluster", f'for it in info get heal list; do case " $* " in *" $it "*) its=$it ;; esac; done; '
                                f'case "$*" in *heal*) its=heal ;; esac; cat {folder}/$its')
    for it in "nft", "cibadmin", "crm_mon":
        stand_in(folder, it, f"cat {folder}/{it}")
    path = ":".join(f"{folder}/stand-in-{it}" for it in ("gluster", "nft", "cibadmin", "crm_mon"))
    status, lines, faults = said(TOOL, "check", "plans", ETC=etc, PATH=f"{path}:{PATH}")
    assert faults == ""
    return status, lines.splitlines()


def test_nothing_is_found(folder, etc):
    assert found_by_check(folder, etc, "all", "", "") == (0, [
        "plans: all is as it must be; the room is not mounted here: check there too"])


@pytest.mark.parametrize("name, old, new, want", [
    ("info", "Started", "Stopped", "the volume is Stopped"),
    ("info", "<arbiterCount>0", "<arbiterCount>1", "whole copies"),
    ("get", "cluster.eager-lock  off", "cluster.eager-lock  on (DEFAULT)", "eager-lock is on and must be off"),
    ("get", HOSTS[2], "10.0.0.4", "auth.allow is"),
    ("list", "2 Connected", "2 Disconnected", "10.0.0.2 is Disconnected"),
    ("heal", "Connected", "Transport endpoint", "the copy 10.0.0.1:/srv is away"),
    ("heal", "Entries>0", "Entries>7", "10.0.0.1:/srv has 7 files"),
    ("nft", ", 10.0.0.3", "", "ports are open to everybody"),
    ("cibadmin", "<nvpair ", "<nvpair name='stonith-enabled' value='False'/><nvpair ", "fencing is off"),
    ("cibadmin", "'stop'", "'ignore'", "without a quorum"),
    ("cibadmin", "standby@plans", "standby@club", "no group has"),
    ("cibadmin", "@plans'/>", "@plans'><meta_attributes><nvpair name='target-role' value='Stopped'/></meta_attributes>"
                 "</primitive>", "told to rest"),
    ("crm_mon", "failed='false'", "failed='true'", "no fencing device runs"),
    ("crm_mon", "active='true' failed", "active='false' failed", "no fencing device runs"),
    ("crm_mon", "quorum='true'", "quorum='false'", "the cluster has no quorum"),
    ("crm_mon", "'x' active='true'", "'x' active='false'", "runs the room nowhere")])
def test_what_is_found(folder, etc, name, old, new, want):
    """One finding, and a status that says so."""
    status, lines = found_by_check(folder, etc, name, old, new)
    assert (status, len(lines), lines[-1].partition(";")[0]) == (1, 2, "plans: 1 findings"), lines
    assert want in lines[0]


@pytest.mark.parametrize("mode, is_told", [(0o700, False), (0o710, True), (0o701, True)])
def test_who_may_read_the_copy(folder, etc, monkeypatch, mode, is_told):
    tool = runpy.run_path(TOOL)
    monkeypatch.setitem(tool["of_walls"].__globals__, "BRICKS", folder)
    monkeypatch.setitem(tool["of_walls"].__globals__, "hosts_of", lambda _: [])
    os.chmod(folder, mode)
    assert [*tool["of_walls"]("plans")] == [f"users of this machine may read the copy: chmod 700 {folder}"] * is_told


OPEN = "fd.0.remote_fd = 1\nlock 0: owner = aa\nconnected = 1\n"  # of a copy, with a file that the program has locked
CLOSED = OPEN.replace("= 1\nl", "= -1\nl")


@pytest.mark.parametrize("copies, is_whole, is_left_out", [
    ([OPEN] * 3, True, False), ([OPEN, OPEN, CLOSED], True, True), ([OPEN, OPEN, "connected = 1\n"], True, True),
    ([OPEN, OPEN, CLOSED.replace("ted = 1", "ted = 0")], False, False), ([CLOSED] * 3, True, True),
    (["connected = 1\n"] * 3, True, False), ([OPEN] * 2, False, False)])
def test_a_copy_that_came_back(folder, copies, is_whole, is_left_out):
    """The program is started again where all are there, and one has its files not open."""
    mount = runpy.run_path(TOOL)["Mount"]("plans")
    mount.folder = folder
    for at, said_of_it in enumerate(copies):
        path = os.path.join(folder, f".meta/graphs/active/plans-client-{at}/private")
        os.makedirs(os.path.dirname(path))
        put_file(path, said_of_it)
    assert (mount.is_whole(), mount.has_left_out()) == (is_whole, is_left_out)
