"""Who visits a room at once: each user has some seats in it, each a session of its own, kept in a file."""
import contextlib
import functools
import os
import threading
from dataclasses import replace

from room_client import Settings
from room_client.faults import Fault, SessionLost

from .behind import Behind
from .faults import Busy, as_answered
from .front import Connections
from .turns import Floor, MOST_AT_WORK, TOO_MANY
from .visit import States, UserPace, Visit, file_of_front

SEATS = MOST_AT_WORK  # of a user in a room, and one more for what comes behind answers
MOST_PACES = 2000


class Seats:
    def __init__(self, front: str, folder: str, patience: float):
        self.front, self.folder, self.patience, self.states = Connections(front), folder, patience, States()
        self.taken: set[tuple[str, str, int]] = set()
        self.paces: dict[str, UserPace] = {}
        self.mutex, self.floor, self.behind = threading.Lock(), Floor(), Behind()

    def take(self, room: str, user: str) -> int:
        with self.mutex:
            number = next((it for it in range(SEATS) if (room, user, it) not in self.taken), None)
            if number is None:
                raise Busy(TOO_MANY)
            self.taken.add((room, user, number))
            return number

    def leave(self, room: str, user: str, number: int) -> None:
        with self.mutex:
            self.taken.discard((room, user, number))

    def pace(self, user: str) -> UserPace:
        with self.mutex:
            if user not in self.paces and len(self.paces) >= MOST_PACES:
                self.paces.clear()
            return self.paces.setdefault(user, UserPace(user, self.floor))

    def visits(self, room: str, user: str, password: str, does):
        """What `does` makes of a visit. Where the room does not know the session, because it was made anew, another one
        begins; it goes on where nothing was done yet."""
        number = self.take(room, user)
        try:
            for is_last in False, True:
                visit = self.visit(room, user, password, number)
                try:
                    with visit, contextlib.ExitStack() as then:
                        then.callback(self.settle, visit)
                        return does(visit)
                except SessionLost as fault:
                    visit.begin_anew()
                    if is_last or visit.has_changed:
                        raise as_answered(fault) from None
                except Fault as fault:
                    raise as_answered(fault, visit.front_status) from None
                finally:
                    self.hand_on(visit, room)
        finally:
            self.leave(room, user, number)

    def settle(self, visit: Visit) -> None:
        """What comes behind the answer comes before it, where too much waits."""
        if not self.behind.has_room(visit.settings.user):
            visit.settle_now()

    def hand_on(self, visit: Visit, room: str) -> None:
        if visit.left:
            self.behind.add(visit.settings.user, functools.partial(self.later, visit, room))

    def later(self, visit: Visit, room: str) -> None:
        """(What it leaves, because the room or the front says no, the next writer clears.)"""
        user, left = visit.settings.user, list(visit.left)
        visit.move_to(replace(visit.settings, state=self.state(room, user, SEATS)))
        for _ in range(2):
            try:
                with visit:
                    visit.settle_now()
                if not visit.is_lost:
                    return
            except SessionLost:
                pass
            except Fault:
                return
            visit.begin_anew()
            visit.left, visit.slots = list(left), {}

    def visit(self, room: str, user: str, password: str, number: int) -> Visit:
        state = self.state(room, user, number)
        settings = self.settings(user, password, url=f"http://localhost/rooms/{room}", state=state)
        return Visit(settings, self.front, self.states, self.pace(user))

    def state(self, room: str, user: str, number: int) -> str:
        """(No user's name has an @: the files beside this one, .lock or .1, are no other user's.)"""
        return os.path.join(self.folder, "sessions", room, f"{user}@{number}")

    def settings(self, user: str, password: str, **how) -> Settings:
        return Settings(login=user, password=password, patience=self.patience, **how)

    def file_of_front(self, user: str, password: str, target: str, **fields: str) -> tuple[int, bytes]:
        settings = self.settings(user, password, url="http://localhost", state="")
        return file_of_front(self.front, settings, self.pace(user), target, fields)
