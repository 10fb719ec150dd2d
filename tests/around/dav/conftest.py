"""What the tests of the gateway are given: a room by WebDAV, one for a file of tests, which may name another kind of
desk, and how it is to be, in HOW."""
import os
import sys

import pytest
from served import HERE

sys.path[:0] = [os.path.join(HERE, "..", it) for it in ("client", "dav")]
pytest.register_assert_rewrite("dav.desk", "dav.saves")
from .desk import Desk


@pytest.fixture(scope="module")
def started(request, tmp_path_factory):
    how = {"kind": Desk, **getattr(request.module, "HOW", {})}
    with how.pop("kind")(str(tmp_path_factory.mktemp("dav")), **how) as desk:
        yield desk


@pytest.fixture
def desk(started):
    yield started
    started.settle()
