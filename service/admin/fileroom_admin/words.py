"""Access lists of requests in the client's words."""
from room_client.manifest import FOLDER
from room_client.words import FILE, GROUP, flag_words, mask_words


def entries(its):
    return "; ".join(map(entry, its)) or "an empty list"


def entry(it):
    """(Whoever asks may send any number. Of what kind the object is, the log does not say.)"""
    who = f"group:{it['who']}" if it["flag"] & GROUP else it["who"]
    kind = "deny" if it["type"] == 1 else "allow"
    return " ".join([kind, who, mask_words(it["mask"], FILE, FOLDER), *flag_words(it["flag"])])


def is_entry(it):
    return isinstance(it, dict) and isinstance(it.get("who"), str) and all(
        type(it.get(name)) is int for name in ("type", "flag", "mask"))
