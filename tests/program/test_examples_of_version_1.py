"""Plays the examples over rooms that begin as a file of version 1, made by the statements of tests/cases/version1.sql
with a fresh room's rows: the first run of the program takes it over."""
import pytest
from players import Played, each_scene
from served import put_version_1

pytestmark = pytest.mark.usefixtures("alone")


@each_scene(lambda it: it.is_played("sockets"))
def test_over_sockets(memory, scene):
    room = Played(memory, made=False)
    put_version_1(room.db)
    room.play(scene)
