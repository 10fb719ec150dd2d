"""What is typed, and what the command says: the scenes of *.txt in this folder, whose form is told in commands.txt."""
import glob
import os
import shlex

import pytest
from transcripts import TYPED, as_told, by_shell, lines_of, scenes

from .desk import Desk

STRAIGHT = "commands"  # the scenes of this file ask the room's port; all others go through a front


def each_scene():
    for path in sorted(glob.glob(os.path.join(os.path.dirname(os.path.abspath(__file__)), "*.txt"))):
        file = os.path.basename(path).removesuffix(".txt")
        for name, typed in scenes(path).items():
            yield pytest.param(typed, id=f"{file} {name}", marks=[pytest.mark.front] * (file != STRAIGHT))


def said(desk, user, before, line):
    if not line.startswith("room "):
        return lines_of(*by_shell(line, desk.folder))
    words = desk.words_of("ann") if user is None else Desk.words_of(desk, user)
    stdin = by_shell(before, desk.folder)[1].encode() if before else b""
    return lines_of(*desk.does(*shlex.split(line)[1:], flags=words, stdin=stdin, own_settings=False))


@pytest.mark.parametrize("typed", each_scene())
def test_told(desk, typed):
    for line, told in typed:
        its = said(desk, *TYPED.fullmatch(line).groups())
        assert [line, *its] == [line, *as_told(its, told)]
