"""The gateway's own files: lines of JSON. A file that a halt of the machine or somebody damaged does not keep the
gateway from its start: it is set aside whole, and what could be read of it stays."""
import json
import math
import os
import secrets
import sys
from collections.abc import Callable
from dataclasses import fields


def say(text: str) -> None:
    print(f"fileroom-dav: {text}", file=sys.stderr, flush=True)


def line_of(what: list | dict) -> bytes:
    return json.dumps(what).encode() + b"\n"


def read_lines(path: str, take: Callable[[object], None]) -> bool:
    """Hands on what each line says. Whether the file was set aside. (`take` raises what a wrong line makes it raise.)
    """
    try:
        bad = read_each(path, take)
        why = f"{bad} of its lines cannot be read" if bad else ""
    except FileNotFoundError:
        return False
    except OSError as fault:
        why = os.strerror(fault.errno)
    if why:
        set_aside(path, why)
    return bool(why)


def read_each(path: str, take: Callable[[object], None]) -> int:
    """How many lines could not be read."""
    bad = 0
    with open(path, "rb") as file:
        for line in file:
            try:
                take(json.loads(line))
            except (ValueError, TypeError, KeyError, OverflowError, RecursionError):
                bad += 1
    return bad


def set_aside(path: str, why: str) -> None:
    to = f"{path}.damaged-{secrets.token_hex(4)}"
    os.rename(path, to)
    say(f"{path}: {why}: it is {to} now, and what could be read of it stays")


def record(kind: type, told: dict):
    """One of a kind, each of whose fields has a value of its type."""
    its = kind(**told)
    for it in fields(kind):
        value = getattr(its, it.name)
        is_fit = isinstance(value, (int, float) if it.type is float else it.type)
        if is_fit and isinstance(value, (int, float)):
            is_fit = math.isfinite(value)  # (of many digits it is none that is computed with: OverflowError)
        if not is_fit:
            raise ValueError(f"{it.name} is {value!r}")
    return its
