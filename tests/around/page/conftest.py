"""What the tests of the page are given: a browser and a front for all of them, a room and a tab for each."""
import os
import shutil
import sys

import pytest
from browser import Browser
from given import number
from nginx import lacking
from served import HERE, bytes_of, stopping

sys.path.append(os.path.join(HERE, "..", "client"))
from .club import FRAME, TOP, Club

OTHERS = ("return performance.getEntriesByType('resource').map((it) => new URL(it.name).origin)"
          ".filter((it) => it !== location.origin)")


@pytest.fixture(scope="session")
def stage(tmp_path_factory, lasting):
    missing = [*lacking(), *(it for it in ("chromium", "chromedriver") if not shutil.which(it))]
    if missing:
        pytest.skip(f"no {', no '.join(missing)} here")
    Browser.wait = number("WAIT", 60)  # seconds until something never came
    it = Club(str(tmp_path_factory.mktemp("club")), lasting=lasting)
    yield it
    it.close()


@pytest.fixture
def room(stage):
    """One without anything."""
    stage.fresh_room()
    yield
    stage.stop()


@pytest.fixture
def club(stage, room, tmp_path):
    """A room, and a tab of ann's. No script fails, nothing breaks the policy, and nothing is asked of another place."""
    stage.enter(str(tmp_path))
    yield stage
    if stopping.is_set():  # (with all that is asked)
        return
    try:
        assert (complaints(stage.browser), stage.browser.script(OTHERS)) == ([], [])
    finally:
        stage.leave()


@pytest.fixture
def browser(club):
    return club.browser


def complaints(browser):
    """What the console tells but for answers that were lost, and leaving where nothing was pressed since."""
    lost = "Failed to load resource", "Blocked attempt to show a 'beforeunload'"
    return [it for it in browser.complaints() if not any(words in it for words in lost)]


@pytest.fixture
def tells(club):
    """Puts files that the front gives to the page, and takes them back."""
    before = {}

    def put(name, its):
        path = os.path.join(club.front, name)
        before[path] = bytes_of(path) if os.path.exists(path) else None
        club.tell(name, its)
    yield put
    for path, data in before.items():
        os.remove(path)
        if data is not None:
            with open(path, "wb") as file:
                file.write(data)


@pytest.fixture
def frame(club):
    """A folder with some things in it, which is shown."""
    club.lay(*(f"{TOP}/{name}/" if size is None else (f"{TOP}/{name}", bytes(size)) for name, size in FRAME.items()))
    club.anew(TOP)
