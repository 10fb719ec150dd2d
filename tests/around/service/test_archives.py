"""`fileroom-admin room import` of an archive that anybody may have made: a refusal in one line, and all as it was; of
its logins those alone that are written here, and no certificate that nobody asked for."""
import io
import json
import os
import re
import shutil
import subprocess
import sys
import tarfile
import time
from unittest import mock

import pytest
from fileroom_admin import archives, moving, places
from served import HERE, bytes_of, put_file, text_of

from .contents import edit
from .machines import ADMIN
from .stopped import KILLED, stopped
from .test_edited import EDITED

PLANS = "var/lib/fileroom/plans"
STEPS = 17  # of so many an import is stopped at one
SALT, SUM = "0123456789abcdefghijkl", "A" * 43
OURS = {"bob": "{SSHA}" + "A" * 48, "kim": f"$y$j75${SALT}${SUM}", "lou": "$apr1$01234567$" + "A" * 22}
OTHERS = {  # forms that nginx takes too: of no bound, of another cost, of none, and with more behind
    "a": "$6$rounds=20000000$abcdefgh$" + "A" * 86, "b": f"$y$j9T${SALT}${SUM}", "c": "$2y$17$" + "A" * 53,
    "d": "{PLAIN}word", "e": "{SHA}" + "A" * 28, "f": OURS["bob"] + ":more", "g": OURS["bob"] + "A",
    "h": "$5$rounds=99999999$ab$" + "A" * 43, "i": "abJnggxhB/yWI", "j": OURS["kim"] + "A", "k": " " + OURS["lou"],
    "l": f"$y$j75$../..${SUM}", "m": "", "n": f"$7$CU..../....{SALT}${SUM}"}
# the front's files for rooms of these names, as `fileroom-admin` writes them
OF_ROOMS = """import json, sys
sys.path.insert(0, sys.argv[1])
from fileroom_admin.front import OF_ROOM, of_room
print(json.dumps({f"{folder}/{it}.conf": of_room(name, it) for folder, name in OF_ROOM.items() for it in sys.argv[2:]}))
"""


def head(name, size=0, kind=tarfile.REGTYPE, at=None):
    """A member's head; where `at` is given, with what GNU tar writes there of a sparse one."""
    its = tarfile.TarInfo(name)
    its.size, its.type = size, kind
    made = bytearray(its.tobuf(tarfile.GNU_FORMAT))
    for place, text in at or ():
        made[place:place + len(text)] = text
    made[148:156] = b" " * 8
    made[148:156] = b"%06o\0 " % sum(made)
    return bytes(made)


def member(name, data, **how):
    return head(name, len(data), **how) + data + bytes(-len(data) % 512)


def packed(path, its, more=b"", without=()):
    """An archive of these parts, with some bytes before them."""
    put_file(path, more + b"".join(member(*it) for it in its.items() if it[0] not in without) + bytes(1024))
    return path


@pytest.mark.parametrize("plays", ["exec sleep 60", "exec sleep 60 2>&-", "sleep 5 & exit 0"])
def test_who_reads_a_file_for_ever_is_not_waited_for(monkeypatch, plays):
    """What the archive's file has may do that to it."""
    monkeypatch.setattr(moving, "AS_ROOMS", ())
    monkeypatch.setattr(moving, "LONGEST", 0.5, raising=False)
    begin = time.monotonic()
    with pytest.raises(places.Fault, match="longer than 0.5 seconds"):
        moving.by_rooms("sh", "-c", plays)
    assert time.monotonic() - begin < 50


def sparse(size):
    octal = b"%011o\0" % size
    return head("room.db", 0, b"S", [(386, octal + b"%011o\0" % 0), (483, octal)])


def large(size):
    """The head of a member of 8 GiB or more stands behind another one, which says its size: `room export` writes so."""
    of_pax = tarfile.TarInfo("room.db")
    of_pax.size = size
    return of_pax.tobuf(tarfile.PAX_FORMAT)


def named(kind, data):
    """A member whose name another one before it says."""
    return member("x", data, kind=kind) + member("x", b"y"), "room.db-wal"


DEEP, LONG = b"[" * 900_000, b'{"form":' + b"1" * 5000 + b"}"
BELOW_DEEP = b"[users." + b"a." * 1900 + b"a]\n" + b"".join(b"a%d=1\n" % it for it in range(4000))
BEFORE = {  # bytes before its parts, and the part that it lacks
    "a sparse member": (sparse(64 << 20), "room.db"),
    **{what: (head("room.db-wal", 0, kind), "room.db-wal") for what, kind in (
        ("a link", tarfile.SYMTYPE), ("a hard link", tarfile.LNKTYPE), ("a device", tarfile.CHRTYPE),
        ("a folder", tarfile.DIRTYPE))},
    "a part twice": (member("roster.toml", b"[users]\n"), None), "a part more": (member("../more", b"x"), None),
    "a name from elsewhere": named(tarfile.XHDTYPE, b"20 path=room.db-wal\n"),
    "a long name": named(tarfile.GNUTYPE_LONGNAME, b"room.db-wal\0"), "a part less": (b"", "names.json"),
    "bounds that are none": (member("bounds.json", b'{"room":"most"}'), None),
    "a bound of no name": (member("bounds.json", b'{"users":{"\\u001b[0m":"few"}}'), None),
    "a size below nothing": (head("room.db", 0, at=[(124, b"\xff" * 12)]), "room.db"),
    "a long size below nothing": (head("x", 0, tarfile.XHDTYPE, [(124, b"\xff" * 11 + b"\xfe")]), None),
    "half an archive": (head("room.db", 1 << 40), "room.db"),
    "half a large archive": (large(9 << 30), "room.db"),
}
OTHER = {  # the part that is another
    "no room": ("room.db", b"x" * 8192), "no roster": ("roster.toml", b"x"),
    "another form": ("about.json", b'{"form":2,"room":"plans"}'), "no object": ("about.json", b"[]"),
    "no name": ("about.json", b'{"form":1,"room":"../x"}'), "no names": ("names.json", b"[]"),
    "a name that cannot be seen": ("names.json", b'{"bob":"\\u202e"}'),
    "a name that is none": ("names.json", b'{"bob":7}'),
    "brackets": ("about.json", DEEP), "some brackets": ("about.json", b"[" * 4096),
    "a long text": ("about.json", b'{"form":1,"room":"plans"}' + b" " * 4096),
    "a number without an end": ("about.json", LONG[:4000] + b"}"),
    "names in brackets": ("names.json", DEEP), "long numbers": ("names.json", LONG),
    "a roster in brackets": ("roster.toml", b"[users]\nann = " + DEEP),
    "a roster of dots": ("roster.toml", b"a." * 8000 + b"a = 1\n"),
    "a number in the roster": ("roster.toml", b"[users]\nann = " + b"1" * 5000),
    "a roster that is no text": ("roster.toml", b"\xff"),
    "digits in the roster": ("roster.toml", b"[users]\nann = [0x" + b"f" * 5000 + b"]\n"),
    "lines below a deep table": ("roster.toml", BELOW_DEEP),
}
SAYS = {**dict.fromkeys(("a roster of dots", "lines below a deep table"), "has more dots than a roster"),
        "half a large archive": "room.db has 9663676416 bytes"}


def below(machine):
    return sorted(os.path.relpath(os.path.join(at, it), machine.root) for at, folders, names in os.walk(
        machine.at("var/lib/fileroom")) for it in folders + names)


def refuses(machine, path, *words, within=(), has=""):
    """In one line, and all is as before, also in the rooms' folders."""
    machine.told()
    before = machine.files(), below(machine)
    status, said, faults = machine.does("room", "import", *words, path, within=within)
    assert (status, said, len(faults.splitlines()), has in faults) == (1, "", 1, True), faults[-300:]
    assert (machine.files(), below(machine)) == before
    assert machine.told() == []


@pytest.fixture
def path(folder):
    return os.path.join(folder, "odd.tar")


@pytest.mark.parametrize("what", [*BEFORE, *OTHER])
def test_no_archive_of_a_room(there, exported, path, what):
    more, without = BEFORE.get(what, (b"", None))
    others = dict([OTHER[what]]) if what in OTHER else {}
    refuses(there, packed(path, exported.its | others, more, [without]), has=SAYS.get(what, ""))


def test_no_archive_at_all(there):
    assert there.does("room", "import", "/etc/passwd")[0] == 1


def test_cut_while_it_is_read(exported, path):
    shutil.copy(exported.path, path)
    with archives.opened(path) as archive:
        os.truncate(path, archive.members["room.db"][0] + 1)
        with pytest.raises(places.Fault, match="its end is not there, in room.db"):
            archive.copy("room.db", io.BytesIO())


def test_a_pipe(there, path):
    os.mkfifo(path)
    refuses(there, path, within=["timeout", "30"])


def test_more_than_the_disk_has(there, exported, path):
    free = os.statvfs(os.path.dirname(path))
    size = free.f_bavail * free.f_frsize + (1 << 30) & ~511
    packed(path, exported.its, head("room.db", size, at=[(124, b"\x80" + size.to_bytes(11, "big"))]), [
        "room.db", "room.db-wal"])
    with open(path, "r+b") as file:  # (a file with a hole of so many bytes)
        first, others = file.read(512), file.read()
        file.seek(0)
        file.truncate()
        file.write(first)
        file.seek(512 + size)
        file.write(others)
    bound = ["prlimit", "--fsize=80000000"]  # (of what is written)
    refuses(there, path, within=bound, has=" MiB free, and")


@pytest.mark.parametrize("what", ["a ring", "a trigger", "a column that is computed", "values without their types",
                                  "an index"])
def test_a_room_in_which_somebody_wrote(there, exported, path, folder, what):
    """It is looked at as by `--one`."""
    ring = "UPDATE node SET parent = (SELECT id FROM node WHERE name = 'below') WHERE name = 'minutes'"
    at = os.path.join(folder, "edited.db")
    for end in "", "-wal":
        put_file(at + end, exported.its[f"room.db{end}"])
    edit(at, *([ring] if what == "a ring" else EDITED[what]["sql"]))
    packed(path, exported.its | {"room.db": bytes_of(at)}, without=["room.db-wal"])
    refuses(there, path, has="it is no room: ")


@pytest.mark.parametrize("what", ["fileroom@plans", "fileroom-try@plans.timer", "nginx"])
def test_what_was_in_the_rooms_folder_stays(there, exported, what):
    there.write(f"{PLANS}/room.db.undone-1", "of before")
    there.write(f"{PLANS}/mine", "too")
    there.breaks(what)
    before = below(there)
    assert there.does("room", "import", exported.path)[0] == 1
    assert below(there) == before


def test_its_log_is_there_first(tmp_path):
    """(Where it is stopped in between, a file without its log might pass for the whole room.) Both belong to the rooms'
    user, and the disk has them."""
    seen, kept, its = [], [], places.Places(tmp_path)

    def copies(_, to):
        seen.append(sorted(os.listdir(tmp_path)))
        to.write(b"all of it")

    its.is_machine, nobody = True, mock.Mock(pw_uid=65534, pw_gid=65534)
    folder = os.open(tmp_path, os.O_RDONLY)
    with mock.patch.object(moving.pwd, "getpwnam", return_value=nobody), mock.patch(
            "os.fsync", lambda handle: kept.append(os.fstat(handle))):
        moving.unpack(its, mock.Mock(members={"room.db": (0, 0), "room.db-wal": (0, 0)}, copy=copies), folder)
    os.close(folder)
    assert seen == [["room.db-wal"], ["room.db", "room.db-wal"]]
    assert [(it.st_uid, it.st_gid, it.st_mode & 0o777, it.st_size) for it in kept[:2]] == [(65534, 65534, 0o600, 9)] * 2
    assert kept[2].st_ino == os.stat(tmp_path).st_ino


def test_a_log_without_its_room(there, exported):
    there.write(f"{PLANS}/room.db-wal", "of before")
    refuses(there, exported.path, has="the room plans already exists")
    assert text_of(there.at(f"{PLANS}/room.db-wal")) == "of before"


def test_stopped_at_a_step(there, exported, elsewhere):
    """It can be called again, and then the room is there as it was packed."""
    status, at, again = KILLED, 5, set()
    while status == KILLED:
        there.like(elsewhere)
        status = stopped(there, at, "room", "import", exported.path)
        ended, _, faults = there.does("room", "import", exported.path)
        was_there = "the room plans already exists" in faults and os.path.exists(there.at("etc/fileroom/plans.env"))
        assert ended == 0 or was_there, f"stopped at {at}, and again: {faults}"
        for it in "room.db", "room.db-wal":
            assert bytes_of(there.at(f"{PLANS}/{it}")) == exported.its[it], f"stopped at {at}"
        again.add(ended)
        at += STEPS
    assert (status, again) == (0, {0, 1})


def test_logins(there, exported, path):
    """Those of the forms that are written here come with the room, and nobody's else."""
    users = {**dict.fromkeys([*OURS, *OTHERS], []), "ann": ["eng"]}
    roster = "[users]\n" + "".join(f"{it} = {json.dumps(groups)}\n" for it, groups in users.items())
    lines = "".join(f"{it}:{its_hash}\n" for it, its_hash in {**OURS, **OTHERS, "zed": OURS["bob"]}.items())
    packed(path, exported.its | {"roster.toml": roster.encode(), "logins": lines.encode()})
    before = text_of(there.at("etc/nginx/fileroom/users"))
    status, said, faults = there.does("room", "import", path)
    assert (status, faults, len(said.splitlines())) == (0, "", 3)
    assert "since the archive's has a form that is not written here: a, b, c, d, e and 9 more\n" in said
    assert text_of(there.at("etc/nginx/fileroom/users")) == before + "".join(
        f"{it}:{its_hash}\n" for it, its_hash in OURS.items())


@pytest.mark.parametrize("is_asked, told", [
    (False, "these have no login: dee\n"), (True, "these log in by the directory: dee\n")])
def test_users_who_are_here(there, exported, path, is_asked, told):
    """Who is a user of a room that is here, and has no login or no name as people write it, gets none by an archive:
    its maker would have the login's rooms, or choose by which name others there see somebody. So is it with who has a
    login or a name, and no room."""
    users = "etc/nginx/fileroom/users"
    there.does("user", "add", "club", "dee")
    there.write("etc/nginx/fileroom/names.json", '{"eve": "Eve Ell"}\n')
    if is_asked:
        there.write("etc/nginx/fileroom/signin/directory.toml", "")
    others = [it for it in text_of(there.at(users)).splitlines() if it[:4] != "dee:"]
    before = "".join(f"{it}\n" for it in (*others, f"eve:{OURS['kim']}"))
    there.write(users, before)
    packed(path, exported.its | {"roster.toml": b"[users]\ndee = []\npam = []\neve = []\n",
                                 "logins": "".join(f"{it}:{OURS['bob']}\n" for it in ("dee", "pam", "eve")).encode(),
                                 "names.json": b'{"dee": "Pam Poe", "pam": "Pam Poe", "eve": "Pam Poe"}'})
    status, said, faults = there.does("room", "import", path)
    assert (status, told in said) == (0, True), said + faults
    assert text_of(there.at(users)) == f"{before}pam:{OURS['bob']}\n"
    assert json.loads(text_of(there.at("etc/nginx/fileroom/names.json"))) == {"eve": "Eve Ell", "pam": "Pam Poe"}


@pytest.fixture
def certified(exported, path, pair):
    """An archive with a certificate. (Its maker has the key too.)"""
    return packed(path, exported.its | dict(zip(("tls/cert.pem", "tls/key.pem"), map(bytes_of, pair))))


def test_a_certificate_that_nobody_asked_for(there, certified):
    before = text_of(there.at("etc/nginx/fileroom/listen.conf"))
    status, said, _ = there.does("room", "import", certified)
    assert (status, "not put to work" in said) == (0, True)
    assert text_of(there.at("etc/nginx/fileroom/listen.conf")) == before


def test_a_certificate_that_is_asked_for(there, certified, pair):
    status, _, faults = there.does("room", "import", "--certificate", certified)
    assert (status, " ssl" in text_of(there.at("etc/nginx/fileroom/listen.conf"))) == (0, True), faults
    key = there.at("etc/nginx/fileroom/tls/key.pem")
    assert (bytes_of(key), os.stat(key).st_mode & 0o777) == (bytes_of(pair[1]), 0o600)
    there.backed_up()
    assert there.does("room", "export", "plans", f"{certified}.again")[0] == 0
    with tarfile.open(f"{certified}.again") as tar:
        assert [tar.extractfile(f"tls/{it}.pem").read() for it in ("cert", "key")] == [*map(bytes_of, pair)]


def test_no_certificate(there, exported):
    refuses(there, exported.path, "--certificate", has="has no certificate")


@pytest.mark.usefixtures("asks_nginx")
def test_names_of_the_front(machine):
    """No room's name can be that of a queue or a zone that the front has for itself."""
    front = os.path.join(HERE, "..", "front")
    texts = [text_of(os.path.join(front, it)) for it in os.listdir(front) if it.endswith(".conf")]
    names = {it for text in texts for it in re.findall(r"(?:zone=|upstream |shared:)fileroom_?(\w+)", text)}
    assert len(names) > 8 and "dav" in names
    names |= {"top", "rooms", "opens", "page", "room_page", "names", "users", "Users"}
    words = [sys.executable, "-B", "-c", OF_ROOMS, os.path.dirname(ADMIN), *sorted(names)]
    for path, text in json.loads(subprocess.run(words, capture_output=True, text=True, check=True).stdout).items():
        machine.write(f"etc/nginx/fileroom/{path}", text)
    how = {"env": machine.env, "capture_output": True, "text": True}
    told = subprocess.run([os.path.join(machine.tools, "nginx"), "-tq"], **how)
    assert (told.returncode, told.stderr) == (0, "")
