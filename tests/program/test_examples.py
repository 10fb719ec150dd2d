"""Plays the examples of crates/test_examples/data against the program, over sockets: each scene has a fresh room of its
own in a file. The whole bytes of each answer are compared, and what the program reports. A scene that is `not sockets`
is left out. A scene of questions alone is sent through `fileroom check` as well, which has no room.
"""
import pytest
import scenes
from players import BAD_HTTP, Played, each_scene
from served import run

pytestmark = pytest.mark.usefixtures("alone")


def is_of_questions(scene):
    """Whether nothing but questions is asked, none of them one that the room could answer in another way."""
    return scene.is_played("sockets") and all(
        isinstance(step, scenes.Request) and step.times == 1
        and step.message(0, scenes.Numbers()).startswith(b"POST /v1/check ") for step in scene.whole())


def streams_of(scene):
    """The bytes that are sent, and those that are due, of each stream of questions."""
    sent = due = b""
    for step in scene.whole():
        sent += step.message(0, scenes.Numbers())
        due += step.due(0)
        if step.closes:
            yield sent, due
            sent = due = b""
    yield sent, due


@each_scene(lambda it: it.is_played("sockets"))
def test_over_sockets(memory, scene):
    Played(memory).play(scene)


@each_scene(is_of_questions)
def test_check(scene):
    for sent, due in streams_of(scene):
        is_bad = due.endswith(BAD_HTTP)
        assert run("check", stdin=sent) == (int(is_bad), due, b"fileroom: bad message\n" * is_bad)
