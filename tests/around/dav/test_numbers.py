"""A room's numbers are not given back: how many a save takes, how often it asks before it is answered, and what comes
behind the answer."""
import os

import pytest

from room_client.words import FOLDER

from .desk import PIECE
from .saves import NO_PUPILS, Saves

HOW = {"kind": Saves, "roster": '[users]\nann = ["eng", "staff"]\nbob = ["eng"]\ncat = ["pupils"]\n'}
SIZE, COUNT = 1_000_000, 51
MOST_ASKED = 1.3  # times for each piece
MOST_MADE = 3  # by a save that renames


def counted(desk, does):
    """The requests to the room before the answer, those behind it, and how many numbers these took."""
    desk.quiet()
    seen, before = [], desk.numbers()
    desk.loser.meanwhile = seen.append, None
    does()
    desk.quiet()
    desk.loser.meanwhile = None
    behind = [it for it in seen if desk.is_behind(it)]
    asked = [it for it in seen if it not in behind and b"/slots/" in it]
    return len(asked), len(behind), desk.numbers() - before


def test_a_file(desk):
    """The same bytes write nothing, and a later version goes into the pieces of the one before the last."""
    desk.made(b"old")
    versions, counts = [os.urandom(COUNT * PIECE) for _ in range(4)], []
    for at, it in enumerate((0, 0, 1, 2, 3)):
        status, data = 204 if at else 201, versions[it]
        counts.append(counted(desk, lambda: desk.does("ann", "PUT", "large", status, data)))
        assert desk.get("bob", "large") == data
    asked, behind, made = zip(*counts)
    assert made == (COUNT + 3, 0, COUNT + 1, 0, 0)
    assert max(asked) <= MOST_ASKED * COUNT, asked
    assert behind[1] < 10  # (nothing is left to do but to look at its parts)
    assert desk.need_one_spare("large") == COUNT


def saved(desk, program, doc, size=SIZE):
    """With other bytes: what is counted."""
    new = os.urandom(size)

    def saves():
        token = ""
        for step in desk.steps(program, doc):
            got, token = desk.step("ann", step, new, token)
            assert got.status < 300, (step, got.body)
    counts = counted(desk, saves)
    assert desk.get("ann", doc) == new
    return counts


def document(desk):
    """A large one, of which whoever may pass it may read it too: else no spare of it fits."""
    doc = desk.made(os.urandom(SIZE))
    desk.set_list(doc, 1, [NO_PUPILS | {"flag": 0x43, "mask": 0x21}])
    return doc


@pytest.mark.parametrize("program, most", [("office by webdav", 0), ("gimp", 2), ("word", 2), ("vim", 3)])
def test_a_program(desk, tell, program, most):
    """The third time it takes no more than the second."""
    doc = document(desk)
    before = desk.kept(doc)
    counts = [saved(desk, program, doc) for _ in range(3)]
    assert [it[2] for it in counts[1:]] == [most] * 2, counts
    assert desk.kept(doc) == before
    tell(f"dav: {program}: asked, behind, numbers: {counts}")


@pytest.mark.parametrize("program", ["gimp", "word", "vim"])
def test_a_program_and_plain_saves_in_turn(desk, tell, program):
    """A file that is saved by renames keeps its spare for who saves it otherwise."""
    doc = document(desk)
    made = [saved(desk, it, doc)[2] for it in 4 * (program, "office by webdav")]
    tell(f"dav: {program} and plain saves in turn: numbers: {made}")
    assert max(made[4:]) <= MOST_MADE, made


def test_documents_of_other_sizes(desk, tell):
    """Saved in turn by one user each finds pieces in the pool that fit it, once there are some."""
    docs, made = [], []
    for size in SIZE, SIZE // 5:
        docs.append((desk.made(os.urandom(size)), desk.top, size))
    for doc, desk.top, size in [*docs, *docs, docs[0]]:
        made.append(saved(desk, "word", doc, size)[2])
    tell(f"dav: of a large and a small one in turn: numbers: {made}")
    assert max(made[2:]) <= MOST_MADE, made


def give(desk, path, group):
    """All of a large file."""
    for name, kind in desk.inside(desk.at(path)).items():
        give(desk, f"{path}/{name}", group) if kind == FOLDER else desk.wire(
            "ann", "CHOWN", f"{path}/{name}", owner="ann", group=group)
    desk.wire("ann", "CHOWN", path, owner="ann", group=group)


def test_documents_of_two_groups(desk, tell):
    """Each finds pieces in the pool that are of its group."""
    made, theirs, above = [], document(desk), desk.top
    ours = document(desk)
    give(desk, ours, "staff")
    for desk.top, doc, program in 4 * [(above, theirs, "word"), (desk.top, ours, "vim"),
                                       (desk.top, ours, "office by webdav")]:
        made.append(saved(desk, program, doc)[2])
    tell(f"dav: of two groups in turn: numbers: {made}")
    assert max(made[6:]) <= MOST_MADE, made
