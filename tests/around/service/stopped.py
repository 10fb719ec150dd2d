"""Calls of `fileroom-admin` that are killed at a step, and what is left then."""
import io
import os
import re
import resource
import shutil
import subprocess
import sys
import tempfile
import zlib

from given import number
from served import text_of


KILLED, BROKEN, MOST = 9, 3, 1000  # two statuses; steps
EVERY = number("EVERY", 4)  # of so many steps a call is killed at one


def undone(asked):
    return [it.replace("enable --now", "disable --now") for it in reversed(asked)]


def counted(task, left):
    """The same, but the process ends as by a kill where this is the step."""
    def one(*words, **how):
        left[0] -= 1
        if left[0] < 0:
            os._exit(KILLED)
        return task(*words, **how)
    return one


def in_a_child(task):
    """The status of a task in a process of its own."""
    child = os.fork()
    if child:
        return os.waitstatus_to_exitcode(os.waitpid(child, 0)[1])
    try:
        os._exit(task())
    finally:
        os._exit(BROKEN)


def stopped(machine, step, *words, stdin=""):
    """A call in a process of its own, which is killed before this one of its steps: its status. (What it says comes
    behind what others said.)"""
    def call():
        os.environ.update(machine.env)
        tempfile.tempdir = machine.folder  # (what a kill leaves there goes with the machine)
        os.umask(0o077)
        said = os.path.join(machine.folder, "said")
        sys.stdin, sys.stdout = io.StringIO(stdin), open(said, "a", encoding="utf-8")
        sys.stderr = open(said, "a", buffering=1, encoding="utf-8")  # (as Python has it)
        left = [step]
        for name in "replace", "unlink", "link", "fsync", "chmod":
            setattr(os, name, counted(getattr(os, name), left))
        subprocess.run = counted(subprocess.run, left)
        resource.setrlimit = lambda *_: None  # (a bound of memory is for a process of its own: this has all of pytest)
        for name in [it for it in sys.modules if it.split(".")[0] == "fileroom_admin"]:
            del sys.modules[name]  # (which another test has with this process's own PATH)
        from fileroom_admin.command import main
        status = main(["--root", machine.root, *words])
        sys.stdout.flush()
        return status

    return in_a_child(call)


def lost_in(machine, logins):
    """Who has another password than anybody before, and neither was it told nor that it may not have been."""
    said, known = text_of(os.path.join(machine.folder, "said")), {it.partition(":")[2] for it in logins}
    now = [it.partition(":") for it in text_of(machine.at("etc/nginx/fileroom/users")).splitlines()]
    users = [user for user, _, its_hash in now if its_hash not in known and its_hash.startswith("{SSHA}")]
    words = {it: re.search(f"(?m)^(?:the password of {it}: |{it},)(.*)", said) for it in users}
    return [it for it in users if f"fileroom-admin user passwd {it}" not in said
            and not (words[it] and machine.fits(it, words[it][1]))]


def stops(machine, *words, stdin="", broken=""):
    """A call that is killed at its steps in turn, or at one in EVERY, and the next call at one of its own: after the
    one behind it all is as before, and no service was asked, or all as after, and then the services were, in their
    order. Where one of them is broken during the call, its undoing has steps too, and those that were asked have read
    the old again."""
    saved, outcomes = shutil.copytree(machine.root, os.path.join(machine.folder, "saved"), symlinks=True), set()
    logins = text_of(machine.at("etc/nginx/fileroom/users")).splitlines()
    before = machine.files(logins)
    machine.told()
    machine.does(*words, stdin=stdin)
    after, asked = machine.files(logins), machine.told()
    first = zlib.crc32(" ".join(map(os.path.basename, words)).encode()) % EVERY
    for at in range(first, MOST, EVERY):
        machine.like(saved)
        machine.breaks(broken)
        machine.write("../said", "")
        status = stopped(machine, at, *words, stdin=stdin)
        machine.breaks("")
        said = text_of(os.path.join(machine.folder, "said"))
        assert status in (1 if broken else 0, KILLED), f"stopped at {at}: {said}"
        stopped(machine, at % 13, "user", "list")
        assert stopped(machine, MOST, "user", "list") == 0, f"the next call, stopped at {at}"
        found, told = machine.files(logins), machine.told()
        outcome = "before" if found == before else "after" if found == after else "something else"
        differ = [it for it in {**found, **before} if found.get(it) != before.get(it)]
        assert outcome != "something else", f"stopped at {at}, other than before: {differ}"
        assert lost_in(machine, logins) == [], f"whose password is lost, stopped at {at}"
        want = asked if outcome == "after" else undone(asked) if broken and told else []
        assert told[len(told) - len(want) if want else 0:] == want, f"services, stopped at {at}"
        outcomes.add(outcome)
        if status != KILLED:
            break
    assert outcomes == {"before", "after"}
