"""The README's first screen and the first day of docs/RUNNING.md, by the lines that stand there, and how long it takes.

Each indented line of these sections is a command, and `#>` below it is what it prints. They are given to one shell in
namespaces of their own (unshare): a network with loopback alone, so that their ports are free, and for the first day,
as root, /etc, /var, /run and /usr/local as layers that go again; it is done once more by the tar file of `make dist`,
with nothing where the toolchain is. So a folder is made over HTTP through Debian's nginx with a password, and the page
is served; then it is looked at from outside: another password is refused, a field room-user that was sent counts
nothing, the page is whole. Left out: `make build` of the first day, since the program that FILEROOM names is there, and
apt-get, since there is no network; where there is no systemd, `systemctl` beside this file stands for it. LONGEST is
how many seconds each may take (600).
"""
import itertools
import json
import os
import shutil
import signal
import subprocess
import sys
import time

import pytest
from clients import Caller
from given import number
from nginx import PATH, login
from parts import below, send
from served import HERE, PROGRAM, bytes_of, loopback, message, one_answer, text_of, until
from typed import Shell, commands

TOP = os.path.dirname(os.path.realpath(HERE))
LONGEST = number("LONGEST", 600)  # what the README says it takes
LAYERS = ("/etc", "/var", "/run", "/usr/local")
# (somebody who types has another terminal for what follows)
BESIDE = {"make try": "make try >said 2>&1 & until grep -qs 'Ctrl-C ends it' said || ! kill -0 $!; do sleep 0.1; done"}
FRONT_PORT = 8080
OF_ONE = [] if os.geteuid() == 0 else ["--map-current-user", "--keep-caps"]
pytestmark = [pytest.mark.timeout(LONGEST + 200), pytest.mark.within(
    "unshare", "--mount", "--net", "--pid", "--fork", "--kill-child", "--mount-proc", *OF_ONE)]
by_root = pytest.mark.skipif(bool(OF_ONE), reason="it wants root")


@pytest.fixture
def folder(tmp_path_factory):
    """All that was started ends with it, and what lies over other folders."""
    loopback()
    it = tmp_path_factory.mktemp("d")  # (a short path: sockets lie below it)
    yield str(it)
    for one in below(os.getpid()):
        send(one.pid, signal.SIGKILL)
    if (it / "layers").is_mount():
        subprocess.run(["umount", "-l", it / "layers"], check=True)


def layers(folder):
    """Lays a folder of ours over each of LAYERS: what is written there is seen here alone, and goes with us."""
    os.mkdir(folder)
    subprocess.run(["mount", "-t", "tmpfs", "layers", folder], check=True)
    for it in LAYERS:
        upper, work = (os.path.join(folder, f"{kind}{it.replace('/', '-')}") for kind in ("upper", "work"))
        os.mkdir(upper)
        os.mkdir(work)
        how = f"lowerdir={it},upperdir={upper},workdir={work}"
        subprocess.run(["mount", "-t", "overlay", "layer", "-o", how, it], check=True)


def listeners():
    return sum(line.split()[3] == "0A" for line in text_of("/proc/net/tcp").splitlines()[1:])


def play(shell, document, heading, instead, tell, top=TOP):
    """Does a section, with other lines instead of some."""
    begin, lines = time.monotonic(), commands(top, document, heading)
    for line, told in lines:
        before = listeners()
        shell.types(line, told, instead.get(line))
        if line.endswith("&") or line.startswith("systemctl enable --now fileroom@"):
            until(lambda: listeners() > before)  # (what is started in the background, or as a service, soon listens)
    seconds = time.monotonic() - begin
    tell(f"firstday: {document}, {heading}: {len(lines)} commands in {seconds:.1f} seconds")
    assert len(lines) > 5
    assert seconds < LONGEST


# From outside

def get(path, fields, method="GET", body=b""):
    return one_answer(FRONT_PORT, message(None, method, path, body, fields=["host: 127.0.0.1:8080", *fields]))


def look(user, password):
    """The front, its page and the room, with this login. A folder is made by a user who says to be another: it belongs
    to the login. (The room may be starting again.)"""
    right, wrong = login(user, password), login(user, password + "x")
    for name in (it for it in os.listdir(os.path.join(TOP, "page")) if not it.endswith(".md")):
        got = get(f"/{name}", [right])
        assert (name, got.status, got.body == bytes_of(os.path.join(TOP, "page", name))) == (name, 200, True)
    assert get("/", [right]).body == get("/index.html", [right]).body
    for path, fields in itertools.product(("/", "/whoami", "/rooms/plans/v1/check"), ([], [wrong])):
        assert get(path, [*fields, f"room-user: {user}"]).status == 401, (path, len(fields))
    assert get("/whoami", [right, "room-user: bob"]).body == f'"{user}"\n'.encode()
    caller = Caller(lambda method, at, body: get(f"/rooms/plans{at}", [right, "room-user: bob"], method, body),
                    sid := os.urandom(16).hex())
    assert caller.open().body == b'{"code":0,"slots":1}'
    assert caller.slot({"cmd": "MKDIR", "path": f"/{sid}"}).body == b'{"code":0}'
    assert json.loads(caller.slot({"cmd": "STAT", "path": f"/{sid}"}).body)["owner"] == user


# The README's

def first_screen(folder, program, tell):
    """In a folder that has what a checkout has, and was built nowhere yet."""
    for it in "Makefile", "client", "examples", "front", "page", "tools":
        os.symlink(os.path.join(TOP, it), os.path.join(folder, it))
    for it in "crates.txt", "HANDLES":
        shutil.copy(os.path.join(TOP, it), folder)
    shutil.copytree(os.path.join(TOP, "crates"), os.path.join(folder, "crates"), ignore=shutil.ignore_patterns("out"))
    asks = {it: it.replace("examples/quick", program) for it, _ in commands(TOP, "README.md", "Start")}
    play(Shell(folder, TMPDIR=folder), "README.md", "Start", asks | BESIDE, tell)
    said = text_of(os.path.join(folder, "said"))
    assert [it for it in (f"http://127.0.0.1:{FRONT_PORT}/", "ann-word", "bob-word") if it not in said] == []
    look("ann", "ann-word")


@pytest.mark.without_program
def test_first_screen_by_the_quick_build(folder, tell):
    """As it stands. The quick build is in its time, and is kept as long as no source has changed."""
    first_screen(folder, "examples/quick", tell)
    is_kept = "import runpy, sys; sys.exit(not runpy.run_path(sys.argv[1])['is_kept']())"
    words = [sys.executable, "-B", "-c", is_kept, os.path.join(folder, "tools", "quickbuild")]
    assert subprocess.run(words).returncode == 0
    with open(os.path.join(folder, "crates", "room_slots", "src", "lib.rt"), "a", encoding="utf-8") as file:
        file.write("\n")
    assert subprocess.run(words).returncode == 1


def test_first_screen(folder, tell):
    """With the program that is there."""
    os.mkdir(os.path.join(folder, "build"))
    os.symlink(PROGRAM, os.path.join(folder, "build", "fileroom"))
    first_screen(folder, "build/fileroom", tell)


# The first day

def first_day(folder, tell, top=TOP, instead=None):
    """Over layers, with Debian's nginx as its package starts it. Its shell, and ann's password."""
    home, units = (os.path.join(folder, "layers", it) for it in ("home", "units"))
    layers(os.path.dirname(home))
    for it in home, units, "/run/lock", "/run/systemd/system":  # (systemd runs, as what is installed sees it)
        os.makedirs(it, exist_ok=True)
    beside = os.path.dirname(os.path.abspath(__file__))
    env = {"HOME": home, "UNITS_RUN": units, "PATH": f"{beside}:/usr/local/bin:{PATH}", "PYTHONDONTWRITEBYTECODE": "1"}
    shell = Shell(top, **env) if instead else Shell(top, FILEROOM=PROGRAM, **env)
    assert shell.does("nginx") == (0, [])
    play(shell, "docs/RUNNING.md", "The first day", instead or {}, tell, top)
    password = text_of(os.path.join(home, ".config", "room-password")).strip()
    look("ann", password)
    assert [len(it) for it in os.listdir("/var/backups/fileroom/plans")] == [20], "a backup, and nothing half"
    assert len(os.listdir("/var/backups/fileroom-front")) == 1
    return shell, password


@by_root
def test_first_day(folder, tell):
    """And what follows on it."""
    shell, password = first_day(folder, tell)
    rights_are_told(shell)
    by_https(shell, folder, "ann", password)
    taken_away(shell)


def rights_are_told(shell):
    """`check` tells a room and passwords that are another's than they must be. (They go back.)"""
    for path, owner, why in (("/var/lib/fileroom/plans/room.db", "fileroom:", "belongs to root"),
                             ("/etc/nginx/fileroom/users", ":fileroom-front", "does not belong to the group")):
        shell.does(f"chown root:root {path}")
        status, said = shell.does("fileroom-admin check")
        assert (status, said[0].startswith(f"{path} {why}"), len(said)) == (1, True, 2), said
        shell.does(f"chown {owner} {path}")
    assert shell.does("fileroom-admin check")[0] == 0


def by_https(shell, folder, user, password):
    """The front takes a certificate while it runs: it answers at port 443 then, and no more at the one of before. The
    certificate is that of an authority of one's own, by the lines of RUNNING, for a name and an address."""
    authority = os.path.join(folder, "authority")
    os.mkdir(authority)
    shell.does(f"cd {authority}")
    for line, told in commands(TOP, "docs/RUNNING.md", "Without a public name", 3):
        shell.types(line, told)
    assert [os.stat(os.path.join(authority, it)).st_mode & 0o77 for it in ("ca.key", "room.key")] == [0, 0]
    shell.does("openssl req -newkey rsa:2048 -nodes -subj /CN=x -addext subjectAltName=DNS:elsewhere -keyout x -out z")
    shell.does("openssl x509 -req -in z -CA ca.pem -CAkey ca.key -copy_extensions copy -out y")
    assert shell.does("openssl verify -CAfile ca.pem y")[0] != 0, "it vouches for more than its names"
    assert shell.does("openssl verify -CAfile ca.pem room.pem")[1] == ["room.pem: OK"]
    shell.does("cd - >/dev/null")
    curl = (f"curl -s -m 20 --cacert {authority}/ca.pem --connect-to ::127.0.0.1: -u {user}:{password} "
            "-w '%{http_code}'")
    for address, want in ("https://room.lan/whoami", [f'"{user}"', "200"]), (
            "https://192.168.1.5/whoami", [f'"{user}"', "200"]), ("https://elsewhere.lan/whoami", ["000"]), (
            "http://room.lan/whoami -o /dev/null", ["301"]), ("http://192.168.1.5/whoami -o /dev/null", ["301"]), (
            f"http://127.0.0.1:{FRONT_PORT}/whoami", ["000"]):
        asks = lambda: shell.does(f"{curl} {address}")[1]
        until(lambda: asks() == want, pause=0.2)  # (the old processes of nginx end in their own time)
        assert asks() == want, address


def served(shell):
    """What the front answers, by https and by http, to who has no login; and whether its wall is there."""
    curl = "curl -sk -m 20 --connect-to ::127.0.0.1: -o /dev/null -w '%{http_code}'"
    asked = [shell.does(f"{curl} {it}://room.lan/")[1] for it in ("https", "http")]
    return [*asked, shell.does("nft list table inet fileroom")[0] == 0]


def taken_away(shell):
    """The front ends with what is installed, and its wall. Rooms stay. `fileroom-admin front` brings back all that it
    was, once the program is there again. (Where nginx goes on with it: tests/around/service/test_installed.py.)"""
    before = [["401"], ["301"], True]
    assert served(shell) == before
    assert shell.does("make uninstall") == (0, [])
    until(lambda: served(shell)[0] == ["000"], pause=0.2)  # (the old processes of nginx end in their own time)
    https, http, is_walled = served(shell)
    assert (https, http == ["301"], is_walled) == (["000"], False, False)
    assert shell.does("nginx -tq") == (0, [])
    assert not shutil.which("fileroom", path="/usr/local/bin")
    assert os.path.exists("/var/lib/fileroom/plans/room.db")
    shell.does("make install")
    status, said = shell.does("fileroom-admin front")
    assert status == 0, said
    until(lambda: served(shell)[0] == ["401"], pause=0.2)
    assert served(shell) == before


@by_root
def test_first_day_of_dist(folder, tell):
    """The same by what `make dist` makes of the commit, where there is no toolchain; `examples/try` of it first."""
    made = os.path.join(folder, "made")
    os.mkdir(made)
    subprocess.run([os.path.join(TOP, "tools", "dist"), made], env={**os.environ, "FILEROOM": PROGRAM},
                   stdout=subprocess.DEVNULL, check=True)
    tar, = (os.path.join(made, it) for it in os.listdir(made))
    subprocess.run(["tar", "-xf", tar, "-C", made], check=True)
    top, toolchain = tar.removesuffix(".tar.gz"), shutil.which(os.environ.get("RT") or "rt")
    if toolchain:
        kit = os.path.dirname(os.path.dirname(os.path.realpath(toolchain)))
        subprocess.run(["mount", "-t", "tmpfs", "nothing", kit], check=True)
        assert os.listdir(kit) == []
    shell = Shell(top, TMPDIR=folder)
    assert shell.does(BESIDE["make try"].replace("make try", "examples/try")) == (0, [])
    assert "build/fileroom, the proved program" in text_of(os.path.join(top, "said"))
    assert shell.does("kill -INT $!; wait $!")[0] == 0
    first_day(folder, tell, top, {"make install": "./install"})
