"""Random questions about lists: the program answers them as Samba's own check of access does.

Samba decides as Windows does (`samba.security.access_check`, of Debian's python3-samba): the same rights at the same
bits, the first entry that names a right decides it, and the owner may read and change the list whatever it says. So an
entry of OWNER@ is one of the owner's SID there, GROUP@ one of the owning group's, EVERYONE@ one of Everyone, and users
and groups have SIDs of their own, which never meet. Compared are the rights allowed of those wanted, asked at once and
one by one, and the lowest that is not.
"""
import random
import re

import pytest
from given import each, number
from served import message, run

security = pytest.importorskip("samba.dcerpc.security", reason="there is no python3-samba")
from samba.security import access_check

QUESTIONS, SEED = number("QUESTIONS", 100_000), number("SEED", 1)
AT_ONCE = 2000
pytestmark = pytest.mark.timeout(900 + QUESTIONS // 300)  # seconds
RIGHTS = [1 << place for place in (*range(11), *range(16, 21))]
INHERIT_ONLY, GROUP_FLAG = 8, 64
USERS, GROUPS = ["ann", "bob", "eng"], ["eng", "staff", "ann"]  # (two names are a user's and a group's)
EVERYONE = security.dom_sid("S-1-1-0")
SIDS = {kind: {name: security.dom_sid(f"S-1-5-21-1-2-3-{first + place}") for place, name in enumerate(names)}
        for kind, names, first in (("user", USERS, 1000), ("group", GROUPS, 2000))}


def mask(dice):
    """One right, a few, all, or any."""
    return sum(dice.sample(RIGHTS, dice.choice((1, 1, 1, 2, 3, 6, 16))))


def entry(dice):
    kind = dice.choice(("OWNER@", "GROUP@", "EVERYONE@", "user", "user", "group", "group"))
    flag = dice.choice((0, 0, 0, 1, 2, 3, 3 | INHERIT_ONLY, 2 | INHERIT_ONLY, 1 | INHERIT_ONLY, 0x80, 0x83))
    who = kind
    if kind == "user":
        who = dice.choice(USERS)
    elif kind in ("group", "GROUP@"):
        flag |= GROUP_FLAG
        who = kind if kind == "GROUP@" else dice.choice(GROUPS)
    return {"flag": flag, "mask": mask(dice), "type": dice.choice((0, 0, 1)), "who": who}


def question(dice):
    return {
        "entries": [entry(dice) for _ in range(dice.choice((0, 1, 2, 3, 4, 6, 9)))],
        "group": dice.choice(GROUPS),
        "groups": dice.sample(GROUPS, dice.randrange(len(GROUPS) + 1)),
        "mask": mask(dice),
        "owner": dice.choice(USERS),
        "user": dice.choice(USERS),
    }


# What Samba says.

def sid_of(asked, it):
    if it["who"] == "OWNER@":
        return SIDS["user"][asked["owner"]]
    if it["who"] == "GROUP@":
        return SIDS["group"][asked["group"]]
    if it["who"] == "EVERYONE@":
        return EVERYONE
    return SIDS["group" if it["flag"] & GROUP_FLAG else "user"][it["who"]]


def described(asked, entries):
    """The security descriptor of an object with these entries."""
    made = security.descriptor()
    made.owner_sid, made.group_sid = SIDS["user"][asked["owner"]], SIDS["group"][asked["group"]]
    made.type |= security.SEC_DESC_DACL_PRESENT
    made.dacl = security.acl()
    for it in entries:
        ace = security.ace()
        ace.type = security.SEC_ACE_TYPE_ACCESS_DENIED if it["type"] else security.SEC_ACE_TYPE_ACCESS_ALLOWED
        ace.flags = security.SEC_ACE_FLAG_INHERIT_ONLY if it["flag"] & INHERIT_ONLY else 0
        ace.access_mask, ace.trustee = it["mask"], sid_of(asked, it)
        made.dacl_add(ace)
    return made


def token_of(asked):
    made = security.token()
    sids = [SIDS["user"][asked["user"]], *(SIDS["group"][it] for it in asked["groups"]), EVERYONE]
    made.sids, made.num_sids = sids, len(sids)
    return made


def is_allowed(made, token, wanted):
    try:
        return access_check(made, token, wanted) == wanted
    except Exception as fault:  # (Samba's own class of them has no public name)
        if fault.args[0] & 0xFFFFFFFF != 0xC0000022:
            raise
        return False


def samba_says(asked, entries=None):
    """The rights allowed of those wanted, one by one; the lowest that is not; whether all are, asked at once."""
    made, token = described(asked, asked["entries"] if entries is None else entries), token_of(asked)
    wanted = [it for it in RIGHTS if it & asked["mask"]]
    allowed = [it for it in wanted if is_allowed(made, token, it)]
    lowest = next((it for it in wanted if it not in allowed), 0)
    return sum(allowed), lowest, is_allowed(made, token, asked["mask"])


# Whether they differ.

def some_questions():
    dice = random.Random(SEED)
    for first in range(0, QUESTIONS, AT_ONCE):
        yield [question(dice) for _ in range(min(AT_ONCE, QUESTIONS - first))]


def test_the_program_answers_as_samba():
    for some in some_questions():
        told = run("check", stdin=b"".join(message(None, "POST", "/v1/check", it) for it in some))
        found = re.findall(rb'\{"allowed":(\d+),"bit":(\d+),"code":0\}', told[1])
        assert (told[0], len(found), told[2]) == (0, len(some), b"")
        answers = [(int(allowed), int(bit), int(bit) == 0) for allowed, bit in found]
        assert [it for it in zip(some, answers, map(samba_says, some)) if it[1] != it[2]] == []


@pytest.fixture(scope="module")
def first():
    """Some questions, and what Samba says."""
    return [(it, samba_says(it)) for it in next(some_questions())]


@each("reading", [
    ("without INHERIT_ONLY", lambda asked: [{**it, "flag": it["flag"] & ~INHERIT_ONLY} for it in asked["entries"]]),
    ("the last entry first", lambda asked: asked["entries"][::-1]),
    ("deny first", lambda asked: sorted(asked["entries"], key=lambda it: -it["type"])),
    ("the owner's for everybody", lambda asked: [
        {**it, "who": "EVERYONE@" if it["who"] == "OWNER@" else it["who"]} for it in asked["entries"]])])
def test_the_questions_tell_another_reading(first, reading):
    """In one of a hundred, so that the comparison can fail."""
    assert sum(samba_says(asked, reading(asked)) != due for asked, due in first) * 100 > len(first)
