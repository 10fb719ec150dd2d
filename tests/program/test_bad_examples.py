"""Shows that the players of examples can fail. The proved one that `rt ci` leaves and the one over sockets refuse what
they cannot read and tell what differs, with file and line; test_growth_in_examples.py tells another answer or report
than is due, and a program that says something else than DELAY as memory is refused (a copy of it, with that name spelt
otherwise). The right example over the right program passes.
"""
import subprocess

import pytest
import scenes
import served
from given import each
from players import Played, proved
from served import PROGRAM, bytes_of
from test_growth_in_examples import InMemory, OverTables, Plays

pytestmark = pytest.mark.usefixtures("alone")
OPEN = 'ann S open {"slots":3}\n  {"code":0,"slots":3}\n'
MKDIR = 'ann S 0/1 {"cmd":"MKDIR","path":"/a"}\n'
# The text, and the start of the line that tells what is wrong
BAD = [
    ("a line that is none", f"== a\n{OPEN}hello\n", "FILE:4: "),
    ("a due answer alone", '== a\n  {"code":0,"slots":3}\n', "FILE:2: "),
    ("an unknown way", f"== a not sideways\n{OPEN}", "FILE:1: "),
    ("an unknown scene", f"== a after b\n{OPEN}", "FILE:1: "),
    ("a scene twice", f"== a\n{OPEN}== a\n{OPEN}", "FILE:4: "),
    ("no scene", "", "FILE"),
    ("a text that stands for nothing", '== a\nann S open %{NONE}\n  {"code":0}\n', "FILE:2: "),
    ("a count without times", '== a\nsend\n  | %{n}\n  {"code":0}\n', "FILE:3: "),
    ("puts alone", "== a\n  puts /a\n", "FILE:2: "),
    ("puts of no path", f'== a\n{OPEN}{MKDIR}  puts a\n  {{"code":0}}\n', "FILE:5: "),
]
ANOTHER = "another answer", f"== a\n{OPEN.replace('3}', '4}', 1)}", "FILE:2: "
PLANNED = [  # (the proved player alone plans)
    ("entries of more objects", f'== a\n{OPEN}{MKDIR}  puts 2\n  {{"code":0}}\n', "FILE:4: "),
    ("entries of another object", f'== a\n{OPEN}{MKDIR}  puts /\n  {{"code":0}}\n', "FILE:4: "),
]
RIGHT = f"""== a
{OPEN}ann S 0/1 {{"cmd":"CREATE","data":"aGk=","path":"/a"}}
  {{"code":0,"size":2}}
""" + 2 * """ann S 0/2 {"cmd":"APPEND","data":"IQ==","path":"/a"}
  {"code":0,"size":3}
""" + """report access
  | 001f07ff ann                              /
  | 001200a9 bob                              /
  | 00000000 eng                              /
  | 001f07ff ann                              /a
  | 001200a9 bob                              /a
  | 00000000 eng                              /a
"""


@pytest.fixture
def file(tmp_path):
    return tmp_path / "bad.txt"


def told(file):
    """The status of the proved player, and its lines."""
    done = subprocess.run([proved(), file.name], cwd=file.parent, capture_output=True, text=True, timeout=300)
    return done.returncode, (done.stdout + done.stderr).replace(file.name, "FILE").splitlines()


@each("text, line", [*BAD, ANOTHER, *PLANNED])
def test_the_proved_player_tells(file, text, line):
    file.write_text(text)
    status, lines = told(file)
    assert (status, [it for it in lines if it.startswith(line)] != []) == (1, True), lines[-3:]


def test_the_proved_player_without_a_file(file):
    status, lines = told(file)
    assert (status, any(it.startswith("FILE") for it in lines)) == (1, True), lines


@each("text, line", BAD)
def test_the_reader_tells(file, text, line):
    file.write_text(text)
    with pytest.raises(scenes.Fault, match="^" + line.replace("FILE", "bad.txt")):
        scenes.read(str(file))


def test_the_reader_without_a_file(file):
    with pytest.raises(scenes.Fault, match="^bad.txt"):
        scenes.read(str(file))


def test_the_player_over_sockets_tells(file, memory):
    file.write_text(ANOTHER[1])
    with pytest.raises(AssertionError, match="line 2"):
        Played(memory).play(scenes.read(str(file))[0])


# What stands in the place of what, in the right example or in the program
@pytest.mark.parametrize("kind", [InMemory, OverTables], ids=["memory", "tables"])
@each("old, new, kinds", [
    ("nothing", "", "", []), ("an answer", '"size":2}', '"size":3}', [InMemory, OverTables]),
    ("that of a request sent again", "3}\nreport", "4}\nreport", [InMemory, OverTables]),
    ("a report", "00000000 eng                              /a", "00000000 eng  /a", [OverTables]),
    ("the program", "DELAY", "DELAX", [InMemory, OverTables])])
def test_the_player_of_growths_tells(file, memory, library, monkeypatch, old, new, kinds, kind):
    text, program = RIGHT.replace(old, new), bytes_of(PROGRAM).replace(old.encode(), new.encode())
    assert ((text, program) != (RIGHT, bytes_of(PROGRAM))) == bool(old)
    file.write_text(text)
    other = file.with_name("other")
    other.write_bytes(program)
    other.chmod(0o755)
    monkeypatch.setattr(served, "PROGRAM", str(other))
    plays = Plays(scenes.read(str(file))[0], kind, library, memory)
    plays.every = 7
    if kind in kinds:
        with pytest.raises(AssertionError):
            plays.play()
    else:
        assert plays.play()["refused"]
