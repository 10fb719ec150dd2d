"""What the tests share: rooms that the program serves, what fails beside a wrong answer, and what is said at the end.

FILEROOM names another program than build/fileroom. A file of tests fails that leaves a process, or a file in the
temporary folder; and so does a test that could not be tried. The last line is 'N passed, M failed'.
"""
import os
import shlex
import shutil
import signal
import subprocess
import sys
import tempfile
import time

import pytest

HERE = os.path.dirname(os.path.abspath(__file__))
sys.path[:0] = [os.path.join(HERE, "lib"), os.path.join(HERE, "..", "tools")]
sys.dont_write_bytecode = True
pytest.register_assert_rewrite("cases", "players", "typed")
import given
import served
from nginx import PATH
from parts import below, send

MOST_TOLD = 12  # tests that failed, at the end
LETTERS, BEFORE = 600, 80  # of a value that differs, and of them those before the first that does
MOMENT = 30  # seconds for what ends with a test to be gone
WITHIN = "PLAYED_WITHIN"  # has its folder in a process that plays a test behind other words


class Run:
    """The folder of a run, and what it has to say at its end."""

    def __init__(self):
        self.folder = os.environ.get(WITHIN) or tempfile.mkdtemp(prefix="fileroom-")
        self.temporary, self.told, self.counts = os.path.join(self.folder, "tmp"), [], []
        self.lasting = []  # processes that one fixture has for several files
        os.mkdir(self.temporary)


def stopped(number, _):
    for it in (signal.SIGTERM, signal.SIGHUP):
        signal.signal(it, signal.SIG_IGN)
    served.stopping.set()
    served.end_servers()
    pytest.exit(f"stopped by {signal.Signals(number).name}", 1)


@pytest.hookimpl(tryfirst=True)
def pytest_configure(config):
    config.run = Run()
    config.addinivalue_line("markers", "without_program: a test that needs no program")
    config.addinivalue_line("markers", "within(*words): a test that a process behind these words plays, as unshare's")
    config.option.basetemp = os.path.join(config.run.folder, "tests")
    os.environ["TMPDIR"] = tempfile.tempdir = config.run.temporary
    signal.signal(signal.SIGTERM, stopped)
    if signal.getsignal(signal.SIGHUP) != signal.SIG_IGN:  # (nohup)
        signal.signal(signal.SIGHUP, stopped)
    served.end_with_parent(signal.SIGTERM)


def pytest_collection_finish(session):
    needed = [it for it in session.items if not it.get_closest_marker("without_program")]
    if needed and not (session.config.option.collectonly or os.access(served.PROGRAM, os.X_OK)):
        pytest.exit(f"there is no {served.PROGRAM}: run make build", 1)


# Tests that a process of their own plays

def words_within(item):
    """The words behind which the test is to be played, or None."""
    mark = None if WITHIN in os.environ else item.get_closest_marker("within")
    return mark and mark.args


def pytest_itemcollected(item):
    if words_within(item):
        item.fixturenames.clear()  # (they are made there)


@pytest.hookimpl(tryfirst=True)
def pytest_pyfunc_call(pyfuncitem):
    words = words_within(pyfuncitem)
    if not words:
        return None
    run, how = pyfuncitem.config.run, {"stdout": subprocess.PIPE, "stderr": subprocess.STDOUT, "text": True}
    folder = os.path.join(run.folder, "in")  # (a short path: sockets lie below it)
    os.makedirs(folder, exist_ok=True)
    done = subprocess.run([*words, "pytest-3", f"{pyfuncitem.path}::{pyfuncitem.name}"], **how,
                          env={**os.environ, "PATH": PATH, WITHIN: folder}, preexec_fn=served.end_with_parent)
    assert done.returncode == 0, done.stdout
    run.told += done.stdout.splitlines()[2:-1]  # (its counts left out)
    return True


# What is said

def pytest_assertrepr_compare(op, left, right):
    if op == "==":
        texts = [it if isinstance(it, str) else ascii(it) for it in (left, right)]
        start = max(len(os.path.commonprefix(texts)) - BEFORE, 0)
        got, want = (".." * bool(start) + it[start : start + LETTERS] for it in texts)
        return ["DIFFERS", f"got  {got}", f"want {want}"]
    return None


def line_of(report):
    """A test that failed, in a line."""
    crash = getattr(report.longrepr, "reprcrash", None)
    return f"{report.nodeid}: {' '.join((crash.message if crash else str(report.longrepr)).split())[:300]}"


def pytest_terminal_summary(terminalreporter, config):
    stats = {it: terminalreporter.stats.get(it, []) for it in ("passed", "failed", "error", "skipped")}
    wrong = {it.nodeid: it for it in [*stats["failed"], *stats["error"]]}
    run = config.run
    run.told += [f"FAILED: {line_of(it)}" for it in list(wrong.values())[:MOST_TOLD]]
    run.told += [f"again: pytest-3 {shlex.quote(it)}" for it in list(wrong)[:MOST_TOLD]]
    run.told += [f"tests: NOT TRIED: {it.nodeid}: {it.longrepr[2]}" for it in stats["skipped"]]
    if wrong and given.numbers:
        run.told.append(f"tests: with {' '.join(f'{name}={it}' for name, it in given.numbers.items())}")
    passed = sum(it.nodeid not in wrong for it in stats["passed"])
    run.counts.append(f"{passed} passed, {len(wrong) + len(stats['skipped'])} failed")


@pytest.hookimpl(tryfirst=True)
def pytest_sessionfinish(session):
    reporter = session.config.pluginmanager.get_plugin("terminalreporter")
    if reporter and reporter.stats.get("skipped") and not session.exitstatus:
        session.exitstatus = pytest.ExitCode.TESTS_FAILED


@pytest.hookimpl(trylast=True)
def pytest_unconfigure(config):
    served.end_servers()
    shutil.rmtree(config.run.folder, ignore_errors=True)
    for it in [*config.run.told, *config.run.counts]:
        print(it, flush=True)


# What is left

def left_of(lasting):
    """The processes that are not these, nor below them."""
    lasting = {it.pid for pid in lasting for it in below(pid)} | {*lasting}
    return [it for it in below(os.getpid()) if it.pid not in lasting]


@pytest.hookimpl(trylast=True)
def pytest_runtest_teardown(item, nextitem):
    """A file of tests leaves no process but those that last, and nothing in the temporary folder."""
    if nextitem and nextitem.fspath == item.fspath:
        return
    until = time.monotonic() + MOMENT
    while (left := left_of(item.config.run.lasting if nextitem else [])) and time.monotonic() < until:
        time.sleep(0.05)
    told = [" ".join(it.words()) for it in left]
    for it in left:
        send(it.pid, signal.SIGKILL)
    assert told == [], "processes are left"
    assert os.listdir(item.config.run.temporary) == [], "files are left in the temporary folder"


# What tests are given

@pytest.fixture(scope="session")
def lasting(request):
    """Names a process that outlasts a file of tests, until the fixture ends that has it."""
    return request.config.run.lasting.append


@pytest.fixture
def tell(request):
    """Says a line at the end of the run."""
    return request.config.run.told.append


@pytest.fixture(scope="module")
def room(tmp_path_factory):
    """A served room, one for a file of tests."""
    it = served.Room(str(tmp_path_factory.mktemp("room"))).start()
    yield it
    it.kill()


@pytest.fixture
def own(tmp_path):
    """A room of this test alone, which is not served yet."""
    it = served.Room(str(tmp_path / "own"))
    yield it
    if it.server:
        it.kill()


@pytest.fixture
def memory():
    """A folder in memory, where the machine has that."""
    home = "/dev/shm" if os.access("/dev/shm", os.W_OK) else None
    with tempfile.TemporaryDirectory(prefix="fileroom-", dir=home) as folder:
        yield folder


@pytest.fixture
def alone():
    """Servers that this test starts end with it."""
    yield
    served.end_servers()


@pytest.fixture
def line(room):
    it = room.line()
    yield it
    it.close()
