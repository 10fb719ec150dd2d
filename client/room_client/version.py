"""Which version this is. `service/install` fills it in; in a checkout it is the program's own."""
import os
import re

FILLED = "@VERSION@"
SOURCE = os.path.join(os.path.dirname(os.path.realpath(__file__)), "../../crates/room_words/src/commands.rt")


def version() -> str:
    if not FILLED.startswith("@"):
        return FILLED
    try:
        with open(SOURCE, encoding="utf-8") as file:
            return re.search(r'VERSION: &str = "(.*)"', file.read())[1]
    except (OSError, TypeError):
        return "of a copy, without a version"
