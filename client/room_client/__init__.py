"""A client of one room of folders and documents, on the standard library alone. docs/CLIENT.md tells how to use it.

    from room_client import Room, Settings

    with Room(Settings(url="http://127.0.0.1:8001", room_user="ann")) as room:
        room.append("/log", b"one more line\\n")
"""
from . import files
from .faults import BadWords, Fault, LocalFault, NotWhole, NoAnswer, OtherVersion, Refused, SessionLost
from .room import Room
from .settings import Settings

__all__ = ["BadWords", "Fault", "LocalFault", "NoAnswer", "NotWhole", "OtherVersion", "Refused", "Room", "SessionLost",
           "Settings", "files"]
