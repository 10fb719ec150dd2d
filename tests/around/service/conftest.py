"""Machines for `fileroom-admin`, and a room with all that a backup may hold. What many tests begin with is made once,
and each has a copy of its own."""
import os
import shutil
import subprocess
import sys
import tarfile
import types

import pytest
from nginx import certified
from served import HERE

sys.path.insert(0, os.path.join(HERE, "..", "service", "admin"))
pytest.register_assert_rewrite("service.contents", "service.machines", "service.stopped")
from .contents import backed_up, filled
from .machines import STAND_INS, Machine, Served, stamp

LATE = stamp(0)


@pytest.fixture
def folder(tmp_path_factory):
    """(A short path: a room's socket is below it.)"""
    return str(tmp_path_factory.mktemp("m"))


@pytest.fixture
def machine_like(folder):
    """Makes a machine with this root, where nobody asks nginx (which has taken these files)."""
    made = []

    def make(root, nginx="true"):
        made.append(Machine(os.path.join(folder, f"m{len(made)}"), root))
        made[-1].stand_in("nginx", nginx)
        return made[-1]

    yield make
    for it in made:
        it.end()


@pytest.fixture
def bare(machine_like):
    """A machine where nothing has begun."""
    return machine_like(None, STAND_INS["nginx"])


@pytest.fixture(scope="session")
def begun(tmp_path_factory):
    """The root of a machine with rooms club and plans, both of ann's, where bob is a user of plans."""
    it = Machine(str(tmp_path_factory.mktemp("m")))
    for words in "room add club ann eng", "room add plans ann eng", "user add plans bob eng":
        status, _, faults = it.does(*words.split())
        assert status == 0, faults
    return it.root


@pytest.fixture
def machine(machine_like, begun):
    return machine_like(begun)


@pytest.fixture
def both_backed_up(machine):
    """Each of its rooms has a backup, which tells its owner."""
    for it in "club", "plans":
        machine.backed_up(it)
    return machine


@pytest.fixture
def asks_nginx(machine):
    machine.stand_in("nginx", STAND_INS["nginx"])


@pytest.fixture
def plans(machine):
    """Its room plans, served."""
    return Served(machine)


@pytest.fixture(scope="session")
def pair(tmp_path_factory):
    """A certificate and its key."""
    return certified(str(tmp_path_factory.mktemp("pair")), "DNS:room.example")


@pytest.fixture(scope="session")
def sound(tmp_path_factory, begun, pair):
    """The root of one with a room more, where `check` finds nothing."""
    it = Machine(os.path.join(str(tmp_path_factory.mktemp("m")), "m"), begun)
    it.stand_in("nginx", "true")
    for words in ["room", "add", "more", "lou", "eng"], ["tls", *pair], ["front"]:
        status, _, faults = it.does(*words)
        assert status == 0, faults
    key, cert = (it.at(f"etc/nginx/fileroom/tls/{name}.pem") for name in ("key", "cert"))
    words = ["openssl", "x509", "-new", "-key", key, "-days", "23", "-subj", "/CN=x", "-out", cert]
    subprocess.run(words, check=True, capture_output=True)
    for room in "club", "more", "plans":
        os.makedirs(it.at(f"var/backups/fileroom/{room}/{LATE}"))
    it.write("var/backups/fileroom-front/2020-01-01.tar.gz", "")
    return it.root


@pytest.fixture
def looked_at(machine_like, sound):
    return machine_like(sound, STAND_INS["nginx"])


@pytest.fixture(scope="session")
def elsewhere(tmp_path_factory):
    """The root of a machine with the room club alone."""
    it = Machine(os.path.join(str(tmp_path_factory.mktemp("m")), "m"))
    it.does("room", "add", "club", "ann", "eng")
    return it.root


@pytest.fixture
def there(machine_like, elsewhere):
    return machine_like(elsewhere)


@pytest.fixture(scope="session")
def exported(tmp_path_factory, begun):
    """An archive of the room plans, what it is made of, bob's password in it, and the machine where it was made."""
    folder = str(tmp_path_factory.mktemp("m"))
    here = Machine(os.path.join(folder, "here"), begun)
    here.stand_in("nginx", "true")
    here.does("user", "add", "club", "eve", "eng")
    here.does("user", "name", "bob", "Bob", "Ray")
    word, room = here.does("-q", "user", "passwd", "bob")[1].strip(), Served(here)
    for it in "/minutes", "/minutes/below":
        room.holds("ann", "MKDIR", it)
    here.end()
    backup, path = os.path.basename(here.backed_up()), os.path.join(folder, "plans.tar")
    told = here.does("room", "export", "plans", path)
    assert told[0] == 0, told
    with tarfile.open(path) as tar:
        its, modes = {it.name: tar.extractfile(it).read() for it in tar}, [it.mode for it in tar]
    return types.SimpleNamespace(machine=here, path=path, its=its, modes=modes, word=word, backup=backup)


@pytest.fixture(scope="session")
def contents(tmp_path_factory):
    """A room that was killed (contents.py), the bytes of its large files, and what was made in it. (Nobody changes it.)
    """
    return filled(str(tmp_path_factory.mktemp("filled")))


@pytest.fixture(scope="session")
def kept(tmp_path_factory, contents):
    """A backup of it."""
    return backed_up(contents[0], str(tmp_path_factory.mktemp("kept")))


@pytest.fixture
def copy(folder, kept):
    """The same, to be changed."""
    return shutil.copytree(kept, os.path.join(folder, "copy"))
