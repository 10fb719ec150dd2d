"""What a large file is made of follows it: of one that cannot be made anew nothing is lost. (The rest: parts.txt.)"""
from unittest import mock

import pytest
from room_client import files
from room_client.faults import Refused
from room_client.manifest import NAME, PIECE
from room_client.room import Room
from room_client.securing import secure

from .desk import some

pytestmark = pytest.mark.front


def anew(room, happens):
    """ann makes the manifest of a file of hers anew, which somebody prepared; this happens before it gets its name."""
    rename = Room.rename

    def renamed(room, path, to):
        if to == f"/a/{NAME}":
            happens(room, path)
        return rename(room, path, to)
    files.write(room, "/a", some(2 * PIECE, 1))
    text = room.read(f"/a/{NAME}")
    room.set_list(f"/a/{NAME}", 1, [{"flag": 0, "mask": 3, "type": 0, "who": "bob"}])
    with mock.patch.object(Room, "rename", renamed):
        secure(room, "/a", None)
    return text


def test_manifest_that_neither_takes_its_place_nor_gets_its_name_back_stays_where_it_is(desk):
    def refused(_, path):
        raise Refused({"code": 5, "error": "ACCESS", "bit": 2, "path": "/a"}, {"path": path})
    told = []
    with desk.behind(say=told.append) as room:
        text = anew(room, refused)
        assert text in [room.read(f"/a/{it}/001") for it in room.children("/a")]
    assert "it cannot be made anew" in told[0]


def test_manifest_that_somebody_clears_on_its_way_is_written_once_more(desk):
    with desk.behind() as room:
        text = anew(room, Room.remove)
        assert room.read(f"/a/{NAME}") == text
