"""`fileroom-backup`: a room that is killed in the middle of writes is backed up, restored elsewhere and served there,
and has what was answered; one that is served, damaged or none is refused. What comes out of a backup alone, also where
a user owns the folder in which root is at work; and the front's files."""
import os
import shutil
import stat
import subprocess
import threading
import time

import pytest
from clients import Pieces
from given import each, number
from served import Room, bytes_of, put_file, session, text_of

from .contents import BACKUP, INSIDE, SERVICE, backed_up, below, odd_manifests, said

ROUNDS = number("ROUNDS", 5)
NOBODY, OTHER = 65534, 4  # of whom the second is a group that root may have
pytestmark = pytest.mark.usefixtures("alone")


def stand_in(folder, name, line):
    """Makes a folder with a program of this name, which does this: the PATH with it in front."""
    made = os.path.join(folder, f"stand-in-{name}")
    os.makedirs(made, exist_ok=True)
    put_file(os.path.join(made, name), f"#!/bin/sh\n{line}\n")
    os.chmod(os.path.join(made, name), 0o755)
    return f"{made}:{os.environ['PATH']}"


def refuses(why, *words, **env):
    """It refuses, for this reason and no other."""
    status, output, faults = said(BACKUP, *words, **env)
    assert (status, output) == (1, "") and why in faults, faults


# A room that moves

def write_until_killed(room, client, seconds):
    """Sends pieces until the server is killed."""
    line = room.line()
    line.ask(session())
    timer = threading.Timer(seconds, room.server.kill)
    timer.start()
    while client.send(line):
        pass
    timer.join()
    line.close()
    room.server.wait()


@pytest.mark.parametrize("round_", range(ROUNDS))
def test_killed_backed_up_and_restored(folder, round_):
    here, there, backups = (os.path.join(folder, it) for it in ("here", "there", "backups"))
    room, client = Room(here).start(), Pieces()
    write_until_killed(room, client, 0.2 + 0.1 * round_)
    copied = backed_up(room, backups)
    shutil.rmtree(here)
    other = Room(there, made=False)
    assert said(BACKUP, "--restore", copied, other.db) == (0, other.db + "\n", "")
    refuses(f"{other.db} exists", "--restore", copied, other.db)
    line = other.start().line()
    if client.flight:  # (what was in flight acts once)
        assert client.send(line)
    client.repeat(line)
    client.read(line)
    line.close()
    refuses("(is the room served?)", other.db, other.roster, backups)


def test_a_room_that_was_never_used(folder):
    """Its log is empty, and each start writes that anew."""
    room = Room(folder).start()
    room.kill()
    backed_up(room, os.path.join(folder, "backups"))


# What is refused, and what is kept

@pytest.fixture(scope="module")
def backups(tmp_path_factory):
    """The folder of a room that is not served, with two backups."""
    it = Room(str(tmp_path_factory.mktemp("room"))).start()
    it.kill()
    folder = os.path.dirname(it.db)
    for year in (2001, 2002, 2003):
        os.makedirs(os.path.join(folder, f"backups/{year}-01-01T00-00-00Z"))
    for left in ".new-abcdef", ".look-abcdef":  # (by a power cut, days ago)
        os.makedirs(os.path.join(folder, f"backups/{left}"))
        os.utime(os.path.join(folder, f"backups/{left}"), (0, 0))
    status, output, _ = said(BACKUP, it.db, it.roster, f"{folder}/backups", KEEP="2")
    kept = ["2003-01-01T00-00-00Z", os.path.basename(output.strip())]
    assert (status, sorted(os.listdir(f"{folder}/backups"))) == (0, kept)
    time.sleep(1.1)  # (a backup is named for its second)
    return folder


@pytest.fixture
def room(folder, backups):
    it = Room(shutil.copytree(backups, os.path.join(folder, "room")), made=False)
    it.backups = os.path.join(folder, "room/backups")
    it.kept = sorted(os.listdir(it.backups))
    yield it
    assert sorted(os.listdir(it.backups)) == it.kept


@pytest.mark.parametrize("keep", ["0", "x"])
def test_no_number_of_backups(room, keep):
    assert said(BACKUP, room.db, room.roster, room.backups, KEEP=keep)[0] == 2


@each("why, name, line", [
    ("a finding", "sqlite3 reports of the copy: row 7", "sqlite3",
     'case "$2" in *integrity_check*foreign_key_check*) echo row 7 missing from index ;; esac'),
    ("served meanwhile, by who asks for no lock", "the room was served during the copy", "cp",
     '/bin/cp "$@"\ncase "$3" in *-wal) date >>"$3" ;; esac'),
    ("a full disk", "MiB free, and this takes", "df",
     "echo Avail; echo $(($(cat ../room.db ../room.db-wal | wc -c) * 2 - 1))")])
def test_refused(room, folder, why, name, line):
    """(The program refuses to open what sqlite3 would find, so a finding is made up.)"""
    refuses(why, room.db, room.roster, room.backups, PATH=stand_in(folder, name, line))


def test_a_folder_of_another_user(room):
    """Who could put something else in its place."""
    os.chown(room.backups, NOBODY, NOBODY)
    refuses("belongs to another user", room.db, room.roster, room.backups)


def test_a_restore_on_to_a_full_disk(folder, kept):
    refuses("MiB free, and this takes", "--restore", kept, os.path.join(folder, "room.db"),
            PATH=stand_in(folder, "df", "echo Avail; echo 4096"))
    assert not os.path.exists(os.path.join(folder, "room.db"))


def test_a_damaged_room(room):
    with open(room.db, "r+b") as file:
        file.seek(4096)
        file.write(b"\xff" * 4096)
    if os.path.exists(room.db + "-wal"):
        os.remove(room.db + "-wal")  # (it may have the page)
    refuses("store failed", room.db, room.roster, room.backups)


def noted(folder, *programs):
    """The PATH on which these write down what they are called with, in steps."""
    for it in programs:
        stand_in(folder, it, f'echo "{it} $*" >>{folder}/steps; exec /bin/{it} "$@"')
    return ":".join([*(f"{folder}/stand-in-{it}" for it in programs), os.environ["PATH"]])


def test_on_the_disk_before_an_older_one_goes(room, folder):
    """All of it, and its name. What a power cut left goes too, and not what another call is at."""
    for it in ".new-left00", ".look-left00", ".new-others":
        os.mkdir(os.path.join(room.backups, it))
        os.utime(os.path.join(room.backups, it), None if "others" in it else (0, 0))
    path = noted(folder, "sync", "mv", "rm")
    status, told, faults = said(BACKUP, room.db, room.roster, room.backups, KEEP="2", PATH=path)
    assert (status, faults) == (0, "")
    name = os.path.basename(told.strip())
    want = [f"sync -f .copied-{name}/room.db", f"mv -T .copied-{name} {name}", "sync -f .",
            f"rm -r -- ./{room.kept[0]}"]
    assert [it for it in text_of(f"{folder}/steps").splitlines() if it in want] == want
    room.kept = [".new-others", room.kept[1], name]


def test_a_clock_that_ran_ahead(room, folder):
    """What is named for a time to come does not push out what was made just now."""
    front, made = os.path.join(folder, "of-the-front"), {}
    put_file(os.path.join(folder, "etc/fileroom/plans.toml"), "")
    for words, end in ([room.db, room.roster, room.backups], "T00-00-00Z"), (["--front", front], ".tar.gz"):
        for year in 2997, 2998, 2999:
            os.makedirs(os.path.join(words[-1], f"{year}-01-01{end}"))
        status, told, faults = said(BACKUP, *words, KEEP="2", ETC=os.path.join(folder, "etc"))
        assert (status, faults) == (0, "")
        made[words[-1]] = sorted([os.path.basename(told.strip()), f"2999-01-01{end}"])
    room.kept = made[room.backups]
    assert sorted(os.listdir(front)) == made[front]


def test_no_room_and_no_words(room):
    refuses("there is no room", room.db + "-none", room.roster, room.backups)
    assert said(BACKUP)[0] == 2


# In two steps: the room is served again once it is copied; the copy is looked at after that

@pytest.fixture
def looked_at_later(room):
    """Makes a copy that was not looked at, and says where it is."""
    assert said(BACKUP, "--copy", room.db, room.roster, room.backups) == (0, "", "")
    one, = [it for it in os.listdir(room.backups) if it.startswith(".")]
    return os.path.join(room.backups, one)


def test_looked_at_later(room, looked_at_later):
    """With one that an earlier look did not come to."""
    shutil.copytree(looked_at_later, os.path.join(room.backups, ".copied-2004-01-01T00-00-00Z"))
    room.start()
    status, told, faults = said(BACKUP, "--look", room.backups)
    assert (status, faults) == (0, "")
    room.kept = sorted([*room.kept, "2004-01-01T00-00-00Z", os.path.basename(looked_at_later)[len(".copied-"):]])
    assert told.splitlines() == [os.path.join(room.backups, it) for it in (room.kept[1], room.kept[-1])]
    assert said(BACKUP, "--look", room.backups) == (0, "", "")  # (nothing more to look at)


def test_a_copy_that_is_no_room(room, looked_at_later):
    with open(os.path.join(looked_at_later, "room.db"), "r+b") as file:
        file.write(bytes(4096))
    refuses("the copy is no room", "--look", room.backups)


def test_a_copy_that_may_not_be_on_the_disk(room, looked_at_later):
    put_file(os.path.join(looked_at_later, "boot"), "of another start of the machine")
    status, output, faults = said(BACKUP, "--look", room.backups)
    assert (status, output) == (0, "") and "dropped" in faults


# One document or folder out of a backup, whose log holds all of it

def contents_of(folder):
    return {it: bytes_of(os.path.join(folder, it)) for it in below(folder)}


@pytest.fixture
def out(folder, kept):
    """Where it comes to; nothing of the backup changes."""
    before = contents_of(kept)
    yield os.path.join(folder, "out")
    assert contents_of(kept) == before


def test_a_backup_has_a_log_and_how_many_numbers_were_used(contents, kept):
    assert os.path.getsize(os.path.join(kept, "room.db-wal")) > len(contents[1])
    assert text_of(os.path.join(kept, "numbers")) == f"{1 + len(contents[2])}\n"


@pytest.mark.parametrize("path", ["/a.txt", "/f/g/\u00e9 c", "/f/big"])
def test_a_document_out_of_a_backup(contents, kept, out, path):
    assert said(BACKUP, "--one", kept, path, out) == (0, f"{out}: 1 documents, 0 folders\n", "")
    assert bytes_of(out) == (contents[2][path] or contents[1])


def test_a_folder_with_damaged_files_out_of_a_backup(contents, kept, out):
    damaged = ["bad", *odd_manifests()]
    told = "".join(f"fileroom-backup: /f/{it} is damaged: its pieces are there as they are\n" for it in damaged)
    assert said(BACKUP, "--one", kept, "/f", out) == (
        1, f"{out}: 11 documents, 7 folders\n", told.replace("\u202e", "\\u202e"))
    pieces = [it.removeprefix("/f/") for it in contents[2] if it.startswith(f"/f/bad/{INSIDE}/")]
    assert below(out) == sorted(["b", "big", "g/\u00e9 c", *pieces, *(f"{it}/.room-file" for it in damaged)])
    assert bytes_of(f"{out}/big") == contents[1]


def test_a_manifest_beside_other_things(kept, out):
    assert said(BACKUP, "--one", kept, "/m", out) == (
        1, f"{out}: 3 documents, 2 folders\n",
        "fileroom-backup: /m has a manifest beside other things, and is no large file\n")
    assert bytes_of(f"{out}/plan") == b"plan"


@pytest.mark.parametrize("why, path", [("there is no /none", "/none"), ("holds no backup", "/a.txt"),
                                       ("already exists", "/a.txt"), ("begin with /", "a.txt")])
def test_what_does_not_come_out(folder, kept, out, why, path):
    if why == "already exists":
        os.symlink("/none", out)
    refuses(why, "--one", folder if why == "holds no backup" else kept, path, out)
    assert os.listdir(folder) == ["out"] * os.path.lexists(out)


# In a user's folder, by root: what root does there belongs to the user, and nothing of root's is touched

# turns each folder that begins so, in the folder in which it runs, into a link to that place
SWAPS = """import os, sys
begin, to = sys.argv[1:]
while True:
    for name in filter(lambda it: it.startswith(begin) and not os.path.islink(it), os.listdir()):
        try:
            os.rename(name, "taken-" + name)
            os.symlink(to, name)
        except OSError:
            pass
"""


class UsersFolder:
    """A folder of a user's with a room, who plays with what root makes there, and one of root's with a secret in it."""

    def __init__(self, folder, top, contents, kept):
        self.top = top
        self.victim, self.mine = (os.path.join(folder, it) for it in ("victim", "mine"))
        self.db, self.roster, self.backups = map(self.at, ("room/room.db", "room/roster.toml", "backups"))
        os.mkdir(self.victim)
        self.secret = os.path.join(self.victim, "secret")
        with open(self.secret, "w", opener=lambda *words: os.open(*words, 0o600), encoding="utf-8") as file:
            file.write("of root")
        self.untouched = self.of_root()
        shutil.copytree(os.path.dirname(contents[0].db), self.at("room"))
        self.copied = shutil.copytree(kept, self.at("copied"))
        for at, folders, names in os.walk(self.mine):
            for it in [at, *(os.path.join(at, it) for it in folders + names)]:
                os.chown(it, NOBODY, NOBODY)
        for it in folder, top:  # (the user comes there)
            while os.path.dirname(it) != it:
                os.chmod(it, os.stat(it).st_mode | 0o111)
                it = os.path.dirname(it)

    def at(self, name):
        return os.path.join(self.mine, name)

    def does(self, *words, **env):
        return said(f"{self.top}/bin/fileroom-backup", *words, **{"FILEROOM": f"{self.top}/bin/fileroom", **env})

    def swapped(self, begin, folder, times, does):
        """Does it some times, while the user swaps folders that begin so."""
        words = ["/usr/bin/python3", "-I", "-c", SWAPS, begin, self.victim]
        user = subprocess.Popen(words, cwd=folder, user=NOBODY, group=NOBODY, extra_groups=[])
        try:
            for it in range(times):
                does(it)
        finally:
            user.kill()
            user.wait()

    def of_root(self):
        its = [os.stat(it) for it in (self.victim, self.secret)]
        return os.listdir(self.victim), bytes_of(self.secret), [(it.st_uid, it.st_mode, it.st_mtime_ns) for it in its]


@pytest.fixture(scope="module")
def top(tmp_path_factory):
    """Where all is installed."""
    it = str(tmp_path_factory.mktemp("usr"))
    assert said(os.path.join(SERVICE, "install"), "", it)[0] == 0
    return it


@pytest.fixture
def users(folder, top, contents, kept):
    it = UsersFolder(folder, top, contents, kept)
    yield it
    assert it.of_root() == it.untouched


def owners(folder):
    return {os.stat(os.path.join(folder, name)).st_uid for name in ["", *below(folder)]}


def test_a_backup_by_root_in_a_users_folder(users):
    status, output, faults = users.does(users.db, users.roster, users.backups)
    assert (status, faults) == (0, "")
    assert owners(output.strip()) == {NOBODY}
    users.swapped(".", users.backups, 6, lambda _: users.does(users.db, users.roster, users.backups))


def test_as_many_as_root_says_are_kept_in_a_users_folder(users):
    """KEEP is a word of root's environment that the user's program gets."""
    before = [f"{year}-01-01T00-00-00Z" for year in (2001, 2002, 2003)]
    for it in "", *before:
        os.mkdir(os.path.join(users.backups, it))
        os.chown(os.path.join(users.backups, it), NOBODY, NOBODY)
    status, output, faults = users.does(users.db, users.roster, users.backups, KEEP="2")
    assert (status, faults) == (0, "")
    assert sorted(os.listdir(users.backups)) == [before[-1], os.path.basename(output.strip())]


def test_one_by_root_in_a_users_folder(users):
    assert users.does("--one", users.copied, "/f", users.at("f"))[0] == 1  # (with what is damaged in it)
    its = [os.stat(os.path.join(users.at("f"), name)) for name in ("", *below(users.at("f")))]
    assert {(one.st_uid, one.st_gid) for one in its} == {(NOBODY, NOBODY)}
    assert {oct(one.st_mode & 0o777) for one in its} == {"0o700", "0o600"}
    users.swapped(".fileroom-", users.mine, 12, lambda it: users.does("--one", users.copied, "/f", users.at(f"f{it}")))


@pytest.mark.parametrize("words", [
    "--one COPIED /a.txt LINK/a", "--one LINK / MINE/x", "--restore COPIED LINK/room.db", "LINK/room.db ROSTER MINE"])
def test_a_link_in_a_users_folder(users, words):
    os.symlink(users.victim, users.at("link"))
    for name, path in (("COPIED", users.copied), ("LINK", users.at("link")), ("ROSTER", users.roster),
                       ("MINE", users.mine)):
        words = words.replace(name, path)
    status, _, faults = users.does(*words.split())
    assert status == 1 and "link" in faults


def test_a_restore_by_root_in_a_users_folder(users):
    os.mkdir(users.at("other"))
    os.chown(users.at("other"), NOBODY, NOBODY)
    for it in "room.db.new", "planted", "old-wal":
        os.symlink(users.secret, users.at(f"other/{it}"))
    db = users.at("other/room.db")
    assert users.does("--restore", users.copied, db) == (0, f"{db}\n", "")
    assert os.stat(db).st_uid == NOBODY
    for it in "planted", "old":  # (a log of before would be taken into the room)
        assert users.does("--restore", users.copied, users.at(f"other/{it}"))[0] == 1


def test_a_users_program_is_not_heard_at_roots_terminal(users):
    """The user's other processes can take what that one has."""
    loud = stand_in(users.mine, "fileroom", "printf 'red: \\033[31m \\302\\233 \\377\\n' >&2; seq 100000 >&2; exit 1")
    loud = f"{loud.partition(':')[0]}/fileroom"
    status, _, faults = users.does(users.db, users.roster, users.backups, FILEROOM=loud)
    assert (status, len(faults) < 5000) == (1, True)
    assert all(it == "\n" or it.isprintable() for it in faults)


def test_a_users_program_has_nothing_of_roots(users):
    """No terminal, no word of its environment, and no group."""
    seen = users.at("seen")
    looks = f"{{ env | grep OF_ROOT; id -G; [ ! -t 0 ] || echo terminal; : </dev/tty && echo its own; }} >{seen} 2>&1"
    program = stand_in(users.mine, "fileroom", f'({looks})\nexec {users.top}/bin/fileroom "$@"').partition(":")[0]
    words = f"setpriv --groups={OTHER} {users.top}/bin/fileroom-backup {users.db} {users.roster} {users.backups}"
    assert said("script", "-qec", words, "/dev/null", FILEROOM=f"{program}/fileroom", OF_ROOT="a word")[0] == 0
    assert [it for it in text_of(seen).splitlines() if "No such device" not in it] == [str(NOBODY)]


# The front's files

def test_of_the_front(folder):
    """Rosters, passwords and the front's files, readable by who made them alone, as they were; the latest are kept."""
    etc, backups, put = (os.path.join(folder, it) for it in ("etc", "of-the-front", "put-back"))
    names = {"fileroom/plans.toml", "fileroom/plans.env", "fileroom/plans.hosts", "fileroom/bounds.json",
             "fileroom/roster.conf", "fileroom/directory-ca.pem", "nginx/fileroom/users",
             "nginx/fileroom/rooms/plans.conf", "nginx/fileroom/tls/key.pem", "nginx/conf.d/fileroom.conf",
             "nginx/conf.d/fileroom-redirect.conf", "nginx/modules-enabled/60-fileroom.conf"}
    for it in names | {"passwd", "nginx/nginx.conf"}:
        put_file(os.path.join(etc, it), it)
    os.mkdir(backups, 0o700)
    made = {"2001-01-01.tar.gz", "2002-01-01.tar.gz"}
    for it in made:
        open(os.path.join(backups, it), "w").close()
    for _ in range(2):
        status, told, faults = said(BACKUP, "--front", backups, ETC=etc, KEEP="2", PATH=noted(folder, "sync", "mv"))
        assert (status, faults) == (0, "")
        made = made | {os.path.basename(told.strip())}
    assert sorted(os.listdir(backups)) == sorted(made)[-2:]  # (one a day)
    assert [it.split()[0] for it in text_of(f"{folder}/steps").splitlines()] == ["sync", "mv"] * 2
    modes = [stat.S_IMODE(os.stat(it).st_mode) for it in (backups, told.strip())]
    assert [oct(it) for it in modes] == ["0o700", "0o600"]
    os.mkdir(put)
    said("tar", "-xzf", told.strip(), "-C", put)
    assert {it: text_of(os.path.join(put, it)) for it in below(put)} == {it: it for it in names}


def test_no_front(folder):
    refuses("there is no front", "--front", os.path.join(folder, "backups"), ETC=folder)
