"""A plugin of pytest that tries mutants in children of a process that has collected its tests, which is far sooner than
one process for each. TRY has the numbers of two open files: from the one come lines of JSON that ask, into the other go
those that answer, the first one once all is collected.

A mutant is of a function's body: the functions of that source that this process has get the code of the edited text.
"""
import gc
import json
import os
import signal
import tempfile
import time
import types

from _pytest.runner import runtestprotocol

PAUSE = 0.02  # seconds between two looks whether a child has ended


def codes_of(code):
    """Each code below one, by its name; None where two have that name."""
    found = {}
    for it in code.co_consts:
        if isinstance(it, types.CodeType):
            for name, one in [(it.co_qualname, it), *codes_of(it).items()]:
                found[name] = None if name in found else one
    return found


def turn(path, text):
    codes = codes_of(compile(text, path, "exec"))
    for it in gc.get_objects():
        if isinstance(it, types.FunctionType) and os.path.realpath(it.__code__.co_filename) == path:
            code = codes.get(it.__code__.co_qualname)
            if code and code.co_freevars == it.__code__.co_freevars:
                it.__code__ = code


def failed(config, items):
    """The first of these tests that fails."""
    config.run.temporary = os.environ["TMPDIR"] = tempfile.tempdir = tempfile.mkdtemp(dir=config.run.folder)
    for it, following in zip(items, [*items[1:], None]):
        if any(report.failed for report in runtestprotocol(it, log=False, nextitem=following)):
            return it.nodeid
    return None


def in_child(config, asked, items):
    """(Its group ends with it.)"""
    out, into = os.pipe()
    child = os.fork()
    if child == 0:
        os.setsid()
        try:
            if asked["text"] is not None:
                turn(asked["path"], asked["text"])
            os.write(into, json.dumps(failed(config, items)).encode())
        finally:
            os._exit(0)
    os.close(into)
    end, status = time.monotonic() + asked["limit"], (0, 0)
    while status == (0, 0) and time.monotonic() < end:
        time.sleep(PAUSE)
        status = os.waitpid(child, os.WNOHANG)
    try:
        os.killpg(child, signal.SIGKILL)
    except ProcessLookupError:
        pass
    if status == (0, 0):
        os.waitpid(child, 0)
    with open(out, "rb") as file:
        said = file.read()
    return "time" if status == (0, 0) else json.loads(said) if said else "ended"


def pytest_runtestloop(session):
    items = {it.nodeid: it for it in session.items}
    asks, answers = map(int, os.environ["TRY"].split(","))
    with open(asks) as lines, open(answers, "w") as told:
        print("null", file=told, flush=True)
        for line in lines:
            asked = json.loads(line)
            its = [items[it] for it in asked["tests"] if it in items]
            print(json.dumps(in_child(session.config, asked, its) if its else "none"), file=told, flush=True)
    return True
