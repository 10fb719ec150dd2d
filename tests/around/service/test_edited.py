"""Copies of a room's file in which somebody wrote: `fileroom-backup --one` refuses them in words, takes little memory,
and leaves nothing. (test_archives.py has `fileroom-admin room import`.)"""
import importlib.machinery
import importlib.util
import os
import re
import resource
import shutil
import tomllib
from unittest import mock

import pytest
from served import HERE, put_file, text_of

from .contents import BACKUP, SERVICE, edit, measured
from .machines import FOLDER

MOST = 300 << 10  # KiB of memory
EDITED = tomllib.loads(text_of(os.path.join(FOLDER, "edited.toml")))


@pytest.mark.parametrize("what", EDITED)
def test_one_out_of_it(folder, copy, what):
    """Nothing hangs, nothing ends with a traceback, and nothing comes out."""
    edit(os.path.join(copy, "room.db"), *EDITED[what]["sql"])
    words = "timeout", "60", BACKUP, "--one", copy, "/", os.path.join(folder, "out")
    status, faults, memory = measured(*words)
    assert (status, len(faults.splitlines()), os.listdir(folder)) == (1, 1, ["copy"]), faults
    assert EDITED[what]["says"] in faults
    assert memory < MOST


def test_a_long_name(folder, copy):
    """A name that no file can have is left out, however long it is, and told by its beginning; the rest comes out."""
    edit(os.path.join(copy, "room.db"), "UPDATE node SET name = printf('%.*c', 256, 'n') WHERE name = 'a.txt'; "
         "UPDATE node SET name = printf('%.*c', 900000, '/') WHERE name = 'b'")
    status, faults, _ = measured(BACKUP, "--one", copy, "/", os.path.join(folder, "out"))
    lines = [it for it in faults.splitlines() if it.endswith("is left out: no file can have that name")]
    assert (status, len(lines), len(faults) < 3000) == (1, 2, True)
    assert os.path.exists(os.path.join(folder, "out/f/g"))


@pytest.fixture
def one():
    """`fileroom-one` as a module."""
    loader = importlib.machinery.SourceFileLoader("one", os.path.join(SERVICE, "fileroom-one"))
    module = importlib.util.module_from_spec(importlib.util.spec_from_loader("one", loader))
    loader.exec_module(module)
    return module


def test_bounds_while_a_file_is_open(one, kept):
    bound = lambda: resource.getrlimit(resource.RLIMIT_AS)[0]
    before = bound()
    with one.opened(kept) as table:
        assert [table.execute(f"PRAGMA {it}").fetchone()[0] for it in ("trusted_schema", "cell_size_check")] == [0, 1]
        assert bound() != before and bound() <= 1 << 30
    assert bound() == before


@pytest.mark.parametrize("written, mode", [(b"more" * 1000, "ab"), (b"more", "r+b")], ids=["grows", "changes"])
def test_a_file_that_changes_while_it_is_copied(folder, one, written, mode):
    """No more comes out than the disk was asked for, and it is refused, also where its size is as it was."""
    its, to = (os.path.join(folder, it) for it in ("from", "to"))
    os.mkdir(its)
    os.mkdir(to)
    with open(os.path.join(its, "room.db"), "wb") as file:
        file.write(b"x" * 5000)
    os.utime(file.name, (0, 0))

    def writes(at, free=shutil.disk_usage):
        with open(file.name, mode) as it:
            it.write(written)
        return free(at)

    with mock.patch.object(one.shutil, "disk_usage", writes), pytest.raises(one.Fault) as told:
        one.copy_room(its, to)
    assert "was changed while it was copied" in str(told.value)
    assert os.path.getsize(os.path.join(to, "room.db")) == 5000


@pytest.mark.parametrize("what", ["a link", "somebody's", "open", "full"])
def test_another_folder_in_the_place_of_ours(folder, one, kept, what):
    """Who has the folder of a target puts one there as ours is made: nothing comes into it."""
    its, to = os.path.join(folder, "its"), os.path.join(folder, "to")
    os.mkdir(its, 0o700)

    def swapped(name, mode, dir_fd=None, task=os.mkdir):
        task(name, mode, dir_fd=dir_fd)
        if not str(name).startswith(".fileroom-"):
            return
        if what == "a link":
            os.rmdir(name, dir_fd=dir_fd)
            os.symlink(its, name, dir_fd=dir_fd)
        elif what == "somebody's":
            os.chown(name, 65534, 65534, dir_fd=dir_fd)
        elif what == "open":
            os.chmod(name, 0o755, dir_fd=dir_fd)
        else:
            task(f"{name}/it", mode, dir_fd=dir_fd)

    with mock.patch.object(os, "mkdir", swapped), pytest.raises((one.Fault, OSError)):
        one.take(kept, "/a.txt", one.Target(to))
    assert (os.listdir(its), os.path.exists(to)) == ([], False)
    left, = [it for it in os.listdir(folder) if it.startswith(".fileroom-")]  # (it is none of ours to clear)
    assert os.listdir(os.path.join(folder, left)) == ["it"] * (what == "full")


def test_what_comes_to_the_target_meanwhile_stays(folder, one, kept):
    to = os.path.join(folder, "to")

    def comes(*words, put=one.Taken.put):
        put(*words)
        put_file(to, "somebody's")

    with mock.patch.object(one.Taken, "put", comes), pytest.raises(one.Fault, match="already exists"):
        one.take(kept, "/a.txt", one.Target(to))
    assert (text_of(to), os.listdir(folder)) == ("somebody's", ["to"])


def test_the_tables_that_are_looked_for():
    """They are those that docs/TABLES.md has, word for word."""
    made = re.findall(r"(?m)^CREATE TABLE .*$", text_of(os.path.join(HERE, "..", "docs", "TABLES.md")))
    assert text_of(os.path.join(SERVICE, "tables.sql")).splitlines() == made
