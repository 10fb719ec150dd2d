"""LOCK and UNLOCK."""
from . import bodies
from .asked import Asked, Reply
from .faults import Answered
from .locks import Held, Lock, timeout_of
from .names import href, is_below
from .props import XML, active
from .rules import ALL_BELOW, Rules
from .saving import put_in_place
from .tree import is_folder, spelled, standing
from .visit import Visit
from .writing import need_folder_above, place


def lock(gate, visit: Visit, asked: Asked) -> Reply:
    rules = Rules(visit, asked, gate.locks)
    rules.need()
    seconds = timeout_of(asked.field("Timeout"))
    body = asked.body(bodies.MOST_BYTES)
    if not body.strip():
        return refreshed(gate, visit, asked, rules, seconds)
    is_shared, owner = bodies.lockinfo_of(body)
    if asked.depth == "1":
        raise Answered(400, "a lock has Depth 0 or infinity")
    path = asked.path if asked.path == "/" else place(gate, visit, asked, asked.path)
    is_there = rules.need_right(path)
    if is_there and asked.depth == "infinity" and is_folder(visit, path):
        # (it holds others off from all that is in the folder: so it is for who may take that away)
        rules.need_right(path, ALL_BELOW)
    if not is_there:
        rules.need_free(path, is_member=True)
    try:
        held = gate.locks.take(asked.room, path, asked.user, is_shared, asked.depth == "infinity", owner, seconds)
    except Held as fault:
        return in_the_way(rules, path, fault.lock)
    if not is_there:
        try:
            need_folder_above(gate, visit, asked, path)
            with gate.changing(asked.room, path):
                put_in_place(gate, visit, asked.room, path, b"", True)
        except BaseException:
            gate.locks.drop([held.token])
            raise
    return told_lock(held, 200 if is_there else 201)


def in_the_way(rules: Rules, path: str, lock: Lock) -> Reply:
    """Where it is not the path itself that is locked, but something in it, each has its own status."""
    its = rules.held(path, lock, "no-conflicting-lock")
    if not is_below(lock.path, path) or its.where is None:
        raise its
    told = [bodies.response(its.where, bodies.refused(423, its.condition, its.why, its.where)),
            bodies.response(href(lock.room, path, False), bodies.status_line(424))]
    return Reply(207, bodies.multistatus(told), [XML])


def told_lock(held, status: int) -> Reply:
    body = bodies.prop(f"<D:lockdiscovery>{active(held, True)}</D:lockdiscovery>")
    return Reply(status, body, [XML, ("Lock-Token", f"<{held.token}>")])


def refreshed(gate, visit: Visit, asked: Asked, rules: Rules, seconds: int) -> Reply:
    path = standing(visit, asked.path)
    found = [it for it in gate.locks.at(asked.room, path) if it.token in rules.tokens and it.user == asked.user]
    if not found:
        raise Answered(412, "no lock of yours has that token", "lock-token-matches-request-uri")
    rules.need_right(path)
    return told_lock(gate.locks.refresh(found[0], seconds), 200)


def unlock(gate, visit: Visit, asked: Asked) -> Reply:
    gate.need_login(asked, "/whoami")
    token = (asked.field("Lock-Token") or "").strip().removeprefix("<").removesuffix(">")
    if not token:
        raise Answered(400, "a field Lock-Token is missing")
    found = [it for it in gate.locks.at(asked.room, spelled(visit, asked.path))
             if it.token == token and it.user == asked.user]
    if not found:
        raise Answered(409, "no lock of yours has that token", "lock-token-matches-request-uri")
    gate.locks.drop([token])
    return Reply(204)
