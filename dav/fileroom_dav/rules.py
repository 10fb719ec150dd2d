"""What has to hold before something is done: If, If-Match, If-None-Match, and that nobody else has a lock."""
import re

from room_client.faults import Refused
from room_client.words import BITS, read_mask

from . import locks as form
from .asked import Asked
from .faults import Answered, NotThere, is_refused
from .locks import Condition, Lock, Locks
from .names import above, href, is_below, split_destination
from .tree import Thing, is_there, spelled, thing_at
from .visit import Visit

WRITE = BITS["write"]  # on a folder: to add a document
CHANGE = read_mask("write,append,delete")  # any of these lets change what is there, or remove it
ALL_BELOW = read_mask("add-file,add-folder,delete-child")  # on a folder: to add what one likes, and to take away
CHANGE_ABOVE = ALL_BELOW  # and any of these, on the folder above
TAGS = re.compile(r'(?:W/)?"[^"]*"')


def may_write(visit: Visit, paths: list[str]) -> list[bool]:
    """Whether the caller may write what is there, as far as the room tells them."""
    replies = visit.ask_all({"cmd": "ACCESS", "keep": False, "mask": WRITE, "path": it} for it in paths)
    return [it.get("allowed") == WRITE for it in replies]


class Rules:
    """Of one request: what the caller says has to hold, and which locks they name."""

    def __init__(self, visit: Visit, asked: Asked, locks: Locks):
        self.visit, self.asked, self.locks = visit, asked, locks
        told = asked.field("If")
        self.conditions = form.conditions_of(told) if told else []
        self.tokens = form.tokens_of(self.conditions)
        self.tags: dict[str, str | None] = {}
        self.places: dict[str, str] = {}

    def tag(self, path: str) -> str | None:
        """Of what is at a path, `""` where it has none, or None where nothing is there."""
        if path not in self.tags:
            try:
                self.tags[path] = thing_at(self.visit, path).etag or ""
            except NotThere:
                self.tags[path] = None
        return self.tags[path]

    def known(self, its: Thing) -> None:
        """(So that it is not asked for twice.)"""
        self.tags[self.asked.path] = its.etag or ""

    def need(self) -> None:
        """What the fields say of the state in which the caller saw it."""
        if self.conditions and not any(self._holds(*it) for it in self.conditions):
            raise Answered(412, "none of what If says holds")
        wanted, unwanted = self.asked.field("If-Match"), self.asked.field("If-None-Match")
        if wanted is not None and not self._fits(wanted):
            raise Answered(412, "it is another version than If-Match says")
        if unwanted is not None and self.asked.method not in ("GET", "HEAD") and self._fits(unwanted):
            raise Answered(412, "something is there that If-None-Match excludes")

    def _fits(self, told: str) -> bool:
        tag = self.tag(self.asked.path)
        if told.strip() == "*":
            return tag is not None
        return bool(tag) and tag in [it.removeprefix("W/") for it in TAGS.findall(told)]

    def _holds(self, address: str | None, listed: list[Condition]) -> bool:
        path = self.asked.path
        if address is not None:
            try:
                room, path = split_destination(address, self.asked.host)
            except Answered:
                return False
            if room != self.asked.room:
                return False
        return all(self._is_so(path, it) != it.is_not for it in listed)

    def _is_so(self, path: str, it: Condition) -> bool:
        if it.kind == "etag":
            return bool(self.tag(path)) and self.tag(path) == it.value.removeprefix("W/")
        lock = self.locks.named(self.asked.room, it.value, self.asked.user)
        return lock is not None and lock.covers(self.place(path))

    def place(self, path: str) -> str:
        if path not in self.places:
            self.places[path] = spelled(self.visit, path)
        return self.places[path]

    def need_free(self, path: str, *, is_deep: bool = False, is_member: bool = False) -> None:
        """That no lock keeps the caller from changing what is there. Whoever may not change it anyway is told of none:
        the room refuses what is asked of it next, in its own words."""
        lock = self.locks.foreign(self.asked.room, path, self.asked.user, self.tokens, is_deep=is_deep,
                                  is_member=is_member)
        if lock is not None and self.may_change(path):
            raise self.held(path, lock, "lock-token-submitted")

    def need_free_to_put(self, path: str) -> None:
        """(A lock of the folder alone keeps which names it has, and not what is in its documents: RFC 4918, 7.4.)"""
        of_above = self.locks.on(self.asked.room, above(path))
        self.need_free(path, is_member=bool(of_above) and not is_there(self.visit, path))

    def may_change(self, path: str) -> bool:
        masks = {path: CHANGE, above(path): CHANGE_ABOVE}
        replies = self.visit.ask_all({"cmd": "ACCESS", "keep": False, "mask": mask, "path": it}
                                     for it, mask in masks.items())
        return any(it.get("allowed") for it in replies)

    def held(self, path: str, lock: Lock, condition: str) -> Answered:
        """What is locked, and by whom, for who may write that."""
        if not may_write(self.visit, [lock.path])[0]:
            what = f"something in {path}" if is_below(lock.path, path) else path
            return Answered(423, f"{what} is locked by somebody else")
        return Answered(423, f"{lock.path} is locked by {lock.user}", condition, href(lock.room, lock.path, False))

    def need_right(self, path: str, wanted: int = WRITE) -> bool:
        """That the caller may write what is there, or make it. Whether it is there."""
        try:
            allowed = self.visit.access(path, wanted)
            is_there = True
        except Refused as fault:
            if not is_refused(fault, "NOENT") or path == "/":
                raise
            allowed, wanted, is_there = self.above(path), WRITE, False
        if allowed & wanted != wanted:
            raise Answered(403, f"the list of {path if is_there else above(path)} does not let you write there")
        return is_there

    def above(self, path: str) -> int:
        try:
            return self.visit.access(above(path), WRITE)
        except Refused as fault:
            if is_refused(fault, "NOENT", "NOTDIR"):
                raise Answered(409, f"no folder is at {above(path)}") from None
            raise
