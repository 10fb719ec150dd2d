"""A library that refuses growths of memory of a program, and the page by which a script tells it which."""
import mmap
import os
import struct

import preloaded

HERE = os.path.dirname(os.path.abspath(__file__))
WORDS = struct.Struct("QQQ")  # as in refuse.c


def built(folder):
    return preloaded.built(folder, os.path.join(HERE, "refuse.c"))


class Refusals:
    """Which growth of the programs that have `env` is refused, and how many were."""

    def __init__(self, library, path):
        with open(path, "w+b") as file:
            file.truncate(mmap.PAGESIZE)
            self.page = mmap.mmap(file.fileno(), mmap.PAGESIZE)
        self.env = {**os.environ, "REFUSE_PAGE": path, "LD_PRELOAD": library}

    def arm(self, number):
        """Refuses the growth of that number from now, from 1; 0 refuses none. The counts begin anew."""
        WORDS.pack_into(self.page, 0, number, 0, 0)

    def refused(self):
        return WORDS.unpack_from(self.page)[1]

    def came(self):
        return WORDS.unpack_from(self.page)[2]
