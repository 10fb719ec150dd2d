"""A login that makes as much as it can, by page, client and WebDAV at once, until it is held."""
import os
import threading
import time

from people import HELD, Failed
from served import put_file, stopping

TOP = "/flood"
LARGE = 1 << 20  # bytes of a file that it sends besides
LONGEST = 1800  # seconds


class Flood:
    """What each way was told at its end."""

    def __init__(self, person):
        self.person, self.told, self.ends = person, {}, time.monotonic() + LONGEST
        ways = [(self.by_page, "page"), (self.by_client, "client"), (self.large_by_dav, "large files by WebDAV")]
        ways += [(self.by_dav, f"WebDAV {it}") for it in range(4)]
        self.threads = [threading.Thread(target=self.play, args=it, daemon=True) for it in ways]

    def play(self, way, name):
        try:
            self.told[name] = way(name)
        except Exception as fault:
            self.told[name] = repr(fault).encode()

    def run(self):
        """Seconds until all were told."""
        begin = time.monotonic()
        for it in self.threads:
            it.start()
        for it in self.threads:
            it.join()
        return time.monotonic() - begin

    def by_page(self, _):
        made = self.person.page.ask("flood", self.person.name, path=TOP)
        return HELD if made else b"none was made"

    def by_client(self, _):
        folder = self.person.place.at("many")
        os.mkdir(folder)
        for it in range(200):
            put_file(os.path.join(folder, f"{it}"), f"{it}")
        number = 0
        while self.goes_on():
            done = self.person.does("put", "-r", folder, f"{TOP}/client-{number}")
            number += 1
            if done.returncode:
                return done.stderr
        return b""

    def by_dav(self, name):
        top = f"{TOP}/{name.replace(' ', '-')}"
        for number in range(200):
            for method, path in [("MKCOL", f"{top}-{number}"), *(("PUT", f"{top}-{number}/{it}") for it in range(200))]:
                told = self.person.ask(method, path, b"x" if method == "PUT" else b"")[2]
                if HELD in told or not self.goes_on():
                    return told
        raise Failed("never held")

    def large_by_dav(self, _):
        number = 0
        while self.goes_on():
            number += 1
            told = self.person.ask("PUT", f"{TOP}/large-{number}", os.urandom(LARGE))[2]
            if HELD in told:
                return told
        return b""

    def goes_on(self):
        return time.monotonic() < self.ends and not stopping.is_set()
