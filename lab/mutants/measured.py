"""Tells which lines each test runs: a plugin of pytest, as `run cover` has it, and what a process below begins with.

MUTANTS is a folder: `current` there has the name of the test that runs, `data.*` the lines (coverage's own files, where
the test is the context), `seconds.*` how long each test took, or null where it failed.
"""
import atexit
import contextlib
import json
import os
import sys
import threading
import time

FOLDER = os.environ.get("MUTANTS", "")
SOON = 0.01  # seconds in which a process sees that another test has begun
OFTEN = 0.3  # in which it writes down what it ran: a kill loses no more
QUIET = "no-data-collected", "trace-changed", "module-not-measured"


def begun(top, folder):
    """Measures this process from here on, until it ends, by os._exit too."""
    sys.path.append("/usr/lib/python3/dist-packages")  # (where a Python of one's own lacks it)
    import coverage
    sys.path.pop()
    its = coverage.Coverage(data_file=os.path.join(folder, "data"), data_suffix=True, config_file=False, messages=False,
                            include=[os.path.join(top, it, "*") for it in ("client", "dav", "service", "signin")])
    its.set_option("run:disable_warnings", [*QUIET])
    its.start()

    def kept():
        its.stop()
        its.save()

    def end(status, end=os._exit):
        kept()
        end(status)
    atexit.register(kept)
    os._exit = end
    return its


def current(folder):
    with contextlib.suppress(OSError), open(os.path.join(folder, "current"), encoding="utf-8") as file:
        return file.read()
    return ""


def follow(its, folder):
    """Has the lines that run counted for the test that runs, in a thread."""
    test, kept = None, 0
    with contextlib.suppress(Exception):  # (the process ends)
        while True:
            last, test, clock = test, current(folder), time.monotonic()
            if test and (test != last or clock > kept + OFTEN):
                its.switch_context(test)  # (it writes as it does)
                kept = clock
            time.sleep(SOON)


def begin_below(top, folder):
    """What a process begins with where a word of its command lies below the tree; pytest has the plugin."""
    if not any("pytest" in it for it in sys.orig_argv[1:3]):
        its = begun(top, folder)
        its.switch_context(current(folder) or "none")
        threading.Thread(target=follow, args=(its, folder), daemon=True).start()


# The plugin

def pytest_configure(config):
    config.measured, config.seconds = begun(os.getcwd(), FOLDER), {}


def pytest_runtest_protocol(item):
    with open(os.path.join(FOLDER, "current"), "w", encoding="utf-8") as file:
        file.write(item.nodeid)
    item.config.measured.switch_context(item.nodeid)
    time.sleep(2 * SOON)


def pytest_runtest_makereport(item, call):
    its = item.config.seconds
    before = its.get(item.nodeid, 0)
    its[item.nodeid] = None if call.excinfo or before is None else before + call.duration


def pytest_unconfigure(config):
    with open(os.path.join(FOLDER, f"seconds.{os.getpid()}"), "w", encoding="utf-8") as file:
        json.dump(config.seconds, file)
