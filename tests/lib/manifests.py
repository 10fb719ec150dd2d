"""Manifests of large files as whoever may write a document may write them: no reader may stumble over one."""
import json
import random

FOLDER = ".room-pieces-0123456789abcdef"
SUM = "0" * 64
LAWFUL = {"folder": FOLDER, "form": 1, "pieces": ["000", "001"], "sha256": SUM, "size": 70000}
# values that stand in the place of a member's, as JSON
ODD = ["null", "true", "[]", "[1]", "{}", '""', '"x"', "0", "-0", "-1", "1.0", "1e0", "1e999", "NaN", "Infinity",
       "9" * 4000, "9" * 5000, '"\\ud800"', '"\\u0000"', '["' + FOLDER + '"]', "[[\"000\"]]", "[" * 3000 + "]" * 3000]
NAMES = ["", ".", "..", "a/b", "a" * 65, "\\n", "\\u0030", "\u00e9", " 0"]


def members(**other):
    """The text of a lawful one, with other texts in the place of its members'."""
    texts = {name: json.dumps(it, separators=(",", ":")) for name, it in LAWFUL.items()} | other
    return "{" + ",".join(f'"{name}":{it}' for name, it in texts.items()) + "}"


def some_pieces(count, name="{:03}"):
    return json.dumps([name.format(it) for it in range(count)])


TAKEN = [it.encode() for it in (  # in any order, and with blanks between
    members(), json.dumps(LAWFUL, indent=1), json.dumps(dict(reversed(LAWFUL.items()))),
    members(pieces="[]", size="0"), members(pieces='["000"]', size="0"),
    members(pieces=some_pieces(256), size=str(1 << 24)), members(pieces=some_pieces(256, "{:064}"), size=str(1 << 24)),
    members(size="65536"), members(size="131072"))]
REFUSED = [it.encode() for it in (
    "", " ", "{", "[" * 60000, "[" * 19000, '{"folder":' * 2000, members() + "x", "\ufeff" + members(), "null", "7",
    members(form="2"), members(more="1"), members(size="65535"), members(size="131073"), members() + " " * 20000,
    members(pieces=some_pieces(257), size=str((1 << 24) + 1)), members(pieces=some_pieces(16000, "000")),
    members(pieces='["000","000"]'), members(folder=f'"{FOLDER}\\n"'), members(folder=f'"{FOLDER.upper()}"'),
    members()[:-1] + ',"size":70000}', '{"size":1,' + members()[1:], members(sha256=f'"{SUM}0"'),
    *(members(**{name: it}) for name in LAWFUL for it in ODD if (name, it) != ("form", "1")),
    *(members(pieces=f'["000","{it}"]') for it in NAMES))]
REFUSED += [members().encode("utf-16"), b"\xff" + members().encode()]


def mangled(seed, count):
    """Lawful ones with a byte or a stretch taken out, put in twice, or turned."""
    draw = random.Random(seed)
    for _ in range(count):
        text = bytearray(members().encode())
        at, end = sorted(draw.sample(range(len(text)), 2))
        how = draw.randrange(3)
        if how == 0:
            text[at:end] = b""
        elif how == 1:
            text[at:at] = text[at:end]
        else:
            text[at] = draw.randrange(256)
        yield bytes(text)
