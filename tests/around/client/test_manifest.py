"""Manifests that nobody's client wrote: none is taken. (That nothing else suffers by them: planted.txt.)"""
from unittest import mock

import manifests
import pytest
from given import each
from room_client import reading
from room_client.faults import NotWhole, OtherVersion, Refused
from room_client.manifest import Manifest, read_manifest

OTHERS = [Manifest.of(bytes(it)).text() for it in range(1, reading.TRIES + 1)]


def test_lawful_manifests_are_taken():
    assert [it for it in manifests.TAKEN if read_manifest(it) is None] == []


def test_odd_manifests_are_not():
    assert [it for it in manifests.REFUSED if read_manifest(it)] == []


def test_mangled_manifests_are_not_or_have_their_pieces():
    taken = {it: read_manifest(it) for it in manifests.mangled(seed=1, count=400)}
    assert [it for it, its in taken.items() if its and len(its.pieces) != 2] == []


@each("later, ends", [("the same", OTHERS[:1], NotWhole), ("none", [None], Refused), ("others", OTHERS, OtherVersion)])
def test_a_version_that_is_never_whole(later, ends):
    """It is read as often as another one comes."""
    with mock.patch.object(reading, "text_at", side_effect=later) as looks, pytest.raises(ends):
        reading.of_version(None, "/a", OTHERS[0] if ends is NotWhole else b"{}", lambda _: None)
    assert looks.call_count == len(later)
