"""What `make dist` and `make deb` make, and when they make nothing. (test_day.py does the first day by what it makes.)

In a clone of the commit: without a proved program, with another one than the proved, and with crates that are no more
those of the commit, it says so and makes nothing; a program that needs more than the C library is refused. Twice made,
it is the same bytes; its sums hold, it has what it installs, its pages and their pictures, the licences of what is
linked in, and nothing that was in no commit. A licence that a commit brings is in it.
"""
import glob
import os
import re
import shutil
import stat
import subprocess
import sys
import tarfile
import types

import pytest
from served import HERE, PROGRAM, bytes_of, text_of

TOP = os.path.dirname(os.path.realpath(HERE))
AROUND = {name: it for name, it in os.environ.items() if name != "FILEROOM"}
NOT_PROVED, WITH_FILEROOM = "not the program that was proved", AROUND | {"FILEROOM": PROGRAM}


def says(*words, env=AROUND, **how):
    """The status, what is said, and what is told as a fault."""
    done = subprocess.run(words, capture_output=True, text=True, timeout=500, env=env, **how)
    return done.returncode, done.stdout, done.stderr


def dist(top, *words, **env):
    return says(os.path.join(top, "tools", "dist"), *words, env=AROUND | env)


def made_in(folder):
    return glob.glob(os.path.join(folder, "*.tar.gz"))


def tar_of(top, folder):
    """What it makes of a checkout."""
    status, _, faults = dist(top, folder)
    assert status == 0, faults
    it, = made_in(folder)
    return it


def put(path, text, how="w"):
    with open(path, how, encoding="utf-8") as file:
        file.write(text)


def cloned(folder):
    assert says("git", "clone", "-q", "--shared", TOP, folder) == (0, "", "")
    return folder


def note(top):
    """Notes, as `make build` does, that its program is proved."""
    for it in os.path.join(top, "build"), os.path.join(top, "crates", "fileroom", "out"):
        os.makedirs(it, exist_ok=True)
        shutil.copy(PROGRAM, os.path.join(it, "fileroom"))
    code = "import sys; sys.path.insert(0, sys.argv[1]); import proved; proved.note(proved.sources())"
    assert says(sys.executable, "-B", "-c", code, os.path.join(top, "tools")) == (0, "", "")


def refused(top, why):
    status, _, faults = dist(top)
    assert (status, why in faults, made_in(os.path.join(top, "build"))) == (1, True, []), faults


@pytest.fixture(scope="module")
def clone(tmp_path_factory):
    """A clone whose program is proved, and in which something more lies. It takes the program that was proved of this
    very commit, and no other."""
    top = cloned(str(tmp_path_factory.mktemp("dist") / "clone"))
    built, source = os.path.join(top, "build", "fileroom"), os.path.join(top, "crates", "room_slots", "src", "lib.rt")
    refused(top, NOT_PROVED)
    os.mkdir(os.path.dirname(built))
    shutil.copy(PROGRAM, built)
    refused(top, NOT_PROVED)
    note(top)
    put(built, "x", "a")
    refused(top, NOT_PROVED)
    shutil.copy(PROGRAM, built)
    text = text_of(source)
    put(source, text + "\n")
    refused(top, "changes that are in no commit")
    put(source, text)
    put(os.path.join(top, "page", "stray.js"), "x")
    return top


def test_a_program_with_more_libraries(clone, tmp_path):
    status, _, faults = dist(clone, str(tmp_path), FILEROOM=sys.executable)
    assert (status, "more than the C library" in faults, os.listdir(tmp_path)) == (1, True, [])


# What is in it

@pytest.fixture(scope="module")
def tar(clone, tmp_path_factory):
    return tar_of(clone, str(tmp_path_factory.mktemp("made")))


@pytest.fixture(scope="module")
def unpacked(tar, tmp_path_factory):
    folder = str(tmp_path_factory.mktemp("unpacked"))
    assert says("tar", "-xf", tar, "-C", folder) == (0, "", "")
    return os.path.join(folder, os.path.basename(tar).removesuffix(".tar.gz"))


def test_the_same_bytes_again(clone, tar, tmp_path):
    assert bytes_of(tar_of(clone, str(tmp_path))) == bytes_of(tar)


def test_it_has_all(tar, unpacked):
    """With its sums; nobody's own, of one time."""
    with tarfile.open(tar) as it:
        about = it.getmembers()
    assert len({(it.uid, it.gid, it.uname, it.gname, it.mtime) for it in about}) == 1
    assert says("sha256sum", "--quiet", "-c", "SHA256SUMS", cwd=unpacked) == (0, "", "")
    names = sorted(it.name.partition("/")[2] for it in about)
    assert sorted(re.findall("(?m)  (.*)$", text_of(f"{unpacked}/SHA256SUMS")) + ["SHA256SUMS"]) == names
    assert bytes_of(f"{unpacked}/build/fileroom") == bytes_of(PROGRAM)
    assert "page/stray.js" not in names
    assert "licence: none has been chosen" in text_of(f"{unpacked}/COMMIT")


def test_its_pages_lead_somewhere(unpacked):
    """Each page that its first page names is there, and each picture of any page."""
    named = re.findall(r"\]\(([^)#:]+)", text_of(f"{unpacked}/README.md"))
    assert len(named) > 10
    for name in (it for it in os.listdir(f"{unpacked}/docs") if it.endswith(".md")):
        named += [f"docs/{it}" for it in re.findall(r"!\[[^]]*\]\(([^)]+)\)", text_of(f"{unpacked}/docs/{name}"))]
    assert [it for it in named if not os.path.exists(f"{unpacked}/{it}")] == []


def test_licences(unpacked):
    """Each of what the program's crates use, and of what that uses; none of what is not linked in."""
    kit = os.path.dirname(os.path.dirname(os.path.realpath(shutil.which(os.environ.get("RT") or "rt"))))
    lines = [it for it in text_of(f"{TOP}/crates.txt").splitlines() if not it.startswith(("#", "test_"))]
    used = sorted({word for it in lines for word in it.partition(":")[2].split()} | {"ryu", "toml_parser"})
    files = [path for it in used for path in glob.glob(f"{kit}/rattle/{it}/LICENSE*")]
    told = bytes_of(f"{unpacked}/COPYRIGHT")
    assert [it for it in files if bytes_of(it) not in told] == []
    assert len(files) > 15, "the toolchain has no licences where they were"
    assert b"tokio" not in told


def test_a_licence_of_its_own(tmp_path):
    """Once the owners have put one at the top."""
    clone = cloned(str(tmp_path / "clone"))
    note(clone)
    put(os.path.join(clone, "LICENSE"), "a licence\n")
    git = ["git", "-C", clone, "-c", "user.name=ann", "-c", "user.email=ann@127.0.0.1"]
    for words in ["add", "LICENSE"], ["commit", "-q", "-m", "A licence"]:
        assert says(*git, *words)[0] == 0
    path = tar_of(clone, str(tmp_path))
    with tarfile.open(path) as it:
        own, about = (it.extractfile(f"{os.path.basename(path).removesuffix('.tar.gz')}/{name}").read()
                      for name in ("LICENSE", "COMMIT"))
    assert (own, b"\nlicence: LICENSE\n" in about) == (b"a licence\n", True)


# What is installed of it, and by the package

def modes(folder):
    """Each file below a folder, as it may be used."""
    return {os.path.relpath(os.path.join(at, it), folder): oct(stat.S_IMODE(os.lstat(os.path.join(at, it)).st_mode))
            for at, _, names in os.walk(folder) for it in names}


def test_it_installs_the_same(unpacked, tmp_path):
    """Its `install` puts what that of the checkout puts."""
    ours, its = str(tmp_path / "ours"), str(tmp_path / "its")
    assert says(os.path.join(TOP, "service", "install"), ours, "/usr/local", env=WITH_FILEROOM)[0] == 0
    assert says(f"{unpacked}/install", env=AROUND | {"DESTDIR": its})[0] == 0
    assert modes(its) == modes(ours)
    assert says(f"{unpacked}/install", "--remove", env=AROUND | {"DESTDIR": its})[0] == 0
    assert modes(its) == {}


@pytest.fixture(scope="module")
def package(clone, tar, tmp_path_factory):
    """What `make deb` makes, unpacked."""
    folder = str(tmp_path_factory.mktemp("package"))
    status, said, faults = says(os.path.join(clone, "tools", "deb"), folder)
    assert (status, len(said.split()), said.rstrip()[-10:]) == (0, 2, "_amd64.deb"), faults
    its_sum, path = said.split()
    root, control = (os.path.join(folder, it) for it in ("root", "control"))
    for how, to in ("-x", root), ("-e", control):
        assert says("dpkg-deb", how, path, to)[0] == 0
    return types.SimpleNamespace(sum=its_sum, root=root, control=control)


def test_the_same_package_again(clone, package, tmp_path):
    assert says(os.path.join(clone, "tools", "deb"), str(tmp_path))[1].split()[0] == package.sum


def test_what_is_packed(package, unpacked, tmp_path):
    """What `install` puts below /usr, as root's."""
    assert says(f"{unpacked}/install", "/usr", env=os.environ | {"DESTDIR": str(tmp_path)})[0] == 0
    packed = {it.removesuffix(".gz") if "/man/" in it else it: mode for it, mode in modes(package.root).items()}
    its = modes(tmp_path)
    assert {it: mode for it, mode in packed.items() if it in its} == its


@pytest.mark.parametrize("words, status", [("upgrade 9.9", 1), ("install 9.9", 1), ("upgrade 0.1", 0), ("install", 0)])
def test_an_older_version_takes_no_newer_ones_place(package, words, status):
    """(What was removed, and not purged, is installed anew over its version.)"""
    got, _, faults = says(f"{package.control}/preinst", *words.split())
    assert (got, "backups" in faults) == (status, status == 1)


def test_a_program_that_is_given(clone, tmp_path):
    """`make deb` and `make dist` prove nothing where FILEROOM names a program, which the package tells as given."""
    words = ["make", "-s", "-C", clone, f"FILEROOM={PROGRAM}"]
    for target in "dist", "deb":
        plan = says(*words, "-n", target, env=os.environ)[1]
        assert ("tools/build" in plan, f"tools/{target}" in plan) == (False, True), plan
    status, said, faults = says(*words, "deb", env=os.environ)
    assert status == 0, faults
    assert says("dpkg-deb", "-x", os.path.join(clone, said.split()[1]), str(tmp_path))[0] == 0
    assert "given by FILEROOM" in text_of(tmp_path / "usr/share/doc/fileroom/COMMIT")
