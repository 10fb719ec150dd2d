"""Lists in words and back, names as they are shown, and the line of each refusal."""
import json
import os
import random
import re
import unicodedata

import pytest
from given import each
from room_client import Refused, SessionLost, slots, words
from room_client.faults import REFUSALS, refused
from served import HERE, text_of

NAMES = ["bob", "-x", "all", "group", "OWNER@", "GROUP@", "EVERYONE@", "a" * 32, ".", "_"]
FLAG_BITS = [1, 2, 4, 8, 0x40, 0x80]
KINDS = [words.FILE, words.FOLDER, words.LARGE]
REFUSED = {int(it[1]): it[2] for it in re.finditer(
    r"^\| (\d+) \| ([A-Z_]+) \|", text_of(os.path.join(HERE, "..", "docs", "CODES.md")), re.MULTILINE)}


def some_bits(dice, bits):
    return sum(dice.sample(bits, dice.randrange(len(bits) + 1)))


def test_flags_come_back():
    for flag in (it for it in range(256) if not it & 0x30):
        for who in ("bob", "OWNER@"):
            entry = {"flag": flag, "mask": 1, "type": flag & 1, "who": who}
            assert [words.read_entry(words.entry_words(entry, it)) for it in KINDS] == [entry] * 3


@pytest.mark.parametrize("data", [None, "", "eHl6+/==", "eHl6" * 20_000, '","path":"/b', "\\", "\n", "\u00e4", 7])
@pytest.mark.parametrize("path", ["/a", '/"data":""', "/\u00e4"])
def test_a_command_as_it_is_written(data, path):
    """Its members by their names, and letters as they are, whether its bytes are looked through or not."""
    command = {"path": path, "keep": False, "cmd": "WRITE"} | ({} if data is None else {"data": data})
    text = slots.compact(command)
    assert text == json.dumps(command, ensure_ascii=False, separators=(",", ":"), sort_keys=True)
    assert json.loads(text) == command


def test_lists_come_back():
    dice, bits = random.Random(1), [it[0] for it in words.RIGHTS]
    for _ in range(2000):
        entries = [{"flag": some_bits(dice, FLAG_BITS), "mask": some_bits(dice, bits), "type": dice.randrange(2),
                    "who": dice.choice(NAMES)} for _ in range(dice.randrange(6))]
        reply = {"aclflag": dice.randrange(8), "code": 0, "entries": entries}
        text = "# /x: a comment\n" + words.list_text(reply, dice.choice(KINDS))
        assert words.read_list(text.splitlines()) == (reply["aclflag"], entries)


@each("kind, flag, want", [
    ("file", words.FILE, 0, "allow bob read,execute"), ("folder", words.FOLDER, 0, "allow bob list,traverse"),
    ("inherited", words.FOLDER, 3, "allow bob list,read,traverse,execute inherit"),
    ("not here", words.FOLDER, 9, "allow bob read,execute inherit-files not-here")])
def test_rights_have_the_words_of_their_kind(kind, flag, want):
    assert words.entry_words({"flag": flag, "mask": 0x21, "type": 0, "who": "bob"}, kind) == want


@pytest.mark.parametrize("text, mask", [
    ("READ_DATA", 1), ("list-directory,Stat", 0x81), ("view,append", 0x1200AD), ("none", 0), ("all", 0x1F07FF),
    ("change", 0x1301EF), ("edit", 0x1200AF)])
def test_other_words_for_rights(text, mask):
    assert words.read_mask(text) == mask


@pytest.mark.parametrize("line, says", [
    ("allow bob", "is no entry"), ("permit bob read", "is no entry"), ("", "is no entry"),
    ("allow bob reed", "'reed' is no right"), ("allow bob read,", "'' is no right"),
    ("allow bob read down", "'down' is no inheritance"), ("allow bob@ read", "'bob@' is nobody"),
    ("allow group: read", "'group:' is nobody"), (f"allow {'a' * 33} read", "is nobody")])
def test_wrong_word_of_an_entry_is_named(line, says):
    with pytest.raises(ValueError, match=says):
        words.read_entry(line)


def test_wrong_flag_of_a_list_is_named():
    with pytest.raises(ValueError, match="'follow' is no flag"):
        words.read_list_flags("follow")


def test_shown_letters_reach_no_terminal_and_do_not_hide():
    assert words.shown("é \u202e\x9b2J\u00a0") == "é \\u202e\\x9b2J\\xa0"
    told = "/a\\x20/\\x20b c\\x20/\\u3164\\ufe0f\\u200b\\xad"
    assert words.shown("/a / b c /\u3164\ufe0f\u200b\u00ad") == told
    assert words.neat("/ a\u0308 b\u00a0/c ") == "/\u00e4 b/c"
    ignored = [it for it in map(chr, range(0x110000)) if unicodedata.category(it) in ("Cf", "Cc", "Zl", "Zp", "Cs")]
    assert [it for it in ignored if words.shown(it) == it] == []


def test_refusals_of_the_docs():
    assert set(REFUSED) == {*REFUSALS, 5, 30}  # (5 has a line of its own, and 30 is sent again)


@pytest.mark.parametrize("code", REFUSED)
def test_refusal_has_a_line(code):
    name, is_lost = REFUSED[code], 20 <= code <= 25
    fault = refused({"code": code, "error": name, "path": "/\n", "bit": 2}, {"cmd": "WRITE", "path": "/\n"})
    assert re.fullmatch(rf"{name} \({code}\) at /\\n: [^\n]+: [^\n]+", str(fault))
    assert (type(fault), fault.status) == ((SessionLost, 4) if is_lost else (Refused, 1))
