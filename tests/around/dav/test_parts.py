"""What a large file is made of follows it: bob, who may change a file of ann's, prepares its manifest, and tries to
write it once its list only lets him read it."""
import os

import pytest
from served import until

from .desk import HERS
from .saves import LARGE, Saves

HOW = {"kind": Saves}
BOBS = {"flag": 0, "mask": 0x1F07FF, "type": 0, "who": "bob"}
ENG_VIEW = {"flag": 0x43, "mask": 0x1200A9, "type": 0, "who": "eng"}


@pytest.mark.parametrize("how", ["owner", "list"])
@pytest.mark.parametrize("program", ["put", "word"])
def test_a_save_undoes_what_was_prepared(desk, program, how):
    """By owning it, or by an own list alone. (What OWNER@ may comes with the first.)"""
    doc, new = desk.made(os.urandom(LARGE)), os.urandom(LARGE)
    its = f"{doc}/.room-file"
    data = desk.wire("bob", "READ", its)["data"]
    desk.wire("bob", "REMOVE", its)
    desk.wire("bob", "CREATE", its, data=data)
    if how == "list":
        desk.wire("bob", "SETLIST", its, aclflag=1, entries=[BOBS])
        desk.wire("bob", "CHOWN", its, owner="ann", group="eng")
    if program == "put":
        desk.does("ann", "PUT", doc, 204, new)
    else:
        for it in desk.steps(program, doc):
            assert desk.step("ann", it, new)[0].status < 300, it
    assert until(lambda: follows(desk, its))
    desk.set_list(desk.top, 2, [ENG_VIEW, HERS])
    tried = [desk.asked("bob", "SETLIST", its, aclflag=1, entries=[BOBS]), desk.asked("bob", "WRITE", its, data="")]
    assert [it["code"] for it in tried] == [5, 5]
    assert desk.get("ann", doc) == new


def follows(desk, its):
    """(Between two renames there is none.)"""
    stat, told = (desk.asked("ann", it, its) for it in ("STAT", "GETLIST"))
    return stat.get("owner") == "ann" and all(it["flag"] & 0x80 for it in told.get("entries", [BOBS]))
