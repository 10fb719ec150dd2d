"""A room of 10,000 objects by the plain model of tests/lib/plain.py. Names, kinds, owners, groups, list flags and lists
are drawn at random, the lists of every form that SETLIST takes, some with as many entries as may be."""
from plain import ALL, GROUP_FLAG, INHERIT_ONLY, PlainRoom, Thing

OBJECTS = 10000
USERS = {"ann": ["eng"], "bob": ["eng", "staff"], "eng": [], "Zoe": ["staff"], "a.b": ["x-1"], "-": [],
         "n" * 32: ["n" * 32, "eng"]}
GROUPS = ["eng", "staff", "x-1", "n" * 32, "of-nobody"]
WHO = ["OWNER@", "GROUP@", "EVERYONE@", *USERS, *GROUPS]
LETTERS = " !#+-.0Aaz~é☃\U0001F600"  # of which some come before `/`
FOLLOWED, DEPTH, BELOW, OWN = 1, 16, 256, 32  # list flags, and limits


def name(dice):
    """(Of at most 64 bytes.)"""
    while True:
        made = "".join(dice.choices(LETTERS, k=dice.choice([1, 2, 2, 3, 3, 16])))
        if made not in (".", ".."):
            return made


def entry(dice, is_folder):
    flag = dice.randrange(16) if is_folder else 0
    if not flag & 3:
        flag &= ~INHERIT_ONLY
    flag |= dice.choice([0, GROUP_FLAG])
    return {"flag": flag, "mask": dice.getrandbits(21) & ALL, "type": dice.choice([0, 0, 1]), "who": dice.choice(WHO)}


def thing(dice, is_folder):
    count = dice.choice([0, 0, 1, 2, 3]) if dice.random() < 0.999 else OWN
    own, bytes_ = [entry(dice, is_folder) for _ in range(count)], dice.randbytes(dice.randrange(3))
    aclflag = dice.choice([FOLLOWED] * 8 + [*range(8)])
    return Thing(dice.choice([*USERS, "of-nobody"]), dice.choice(GROUPS), aclflag, own, None if is_folder else bytes_)


def room(dice):
    made, folders, below = PlainRoom(USERS, "ann", "eng"), [()], {}
    made.things = {(): thing(dice, True)}
    while len(made.things) < OBJECTS:
        above = dice.choice(folders if dice.random() < 0.5 else folders[-8:])
        at = (*above, name(dice))
        if at in made.things or below.setdefault(above, 0) == BELOW:
            continue
        below[above] += 1
        made.things[at] = thing(dice, len(at) < DEPTH and dice.random() < 0.1)
        if made.things[at].is_folder:
            folders.append(at)
    return made
