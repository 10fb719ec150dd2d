"""The anchor of bench/anchor, built and served beside the program: C over libsqlite3, by hand, for the same tables.

It needs gcc and the library's headers: `apt-get install gcc libsqlite3-dev`.
"""
import glob
import os
import shutil
import subprocess
import sys

from served import Room, end_with_parent, started_here

SOURCES = os.path.join(os.path.dirname(os.path.abspath(__file__)), "anchor")
LOAD = "load.c"


def built(folder):
    """The paths of the anchor and of the program that sends messages, made in this folder."""
    if not shutil.which("gcc") or not os.path.exists("/usr/include/sqlite3.h"):
        sys.exit("bench: the anchor needs gcc and libsqlite3-dev: apt-get install gcc libsqlite3-dev")
    anchor, load = os.path.join(folder, "anchor"), os.path.join(folder, "load")
    sources = [it for it in sorted(glob.glob(f"{SOURCES}/*.c")) if os.path.basename(it) != LOAD]
    how = ["gcc", "-std=gnu11", "-O2", "-Wall", "-Wextra", "-o"]
    subprocess.run([*how, anchor, *sources, "-lsqlite3"], check=True)
    subprocess.run([*how, load, f"{SOURCES}/{LOAD}"], check=True)
    return anchor, load


class Anchored(Room):
    """A room that the program has made, served by the anchor to its owner, who is in these groups."""
    anchor = None  # the path of the built one
    user, groups = "ann", ["eng"]

    def words(self):
        return [self.anchor, self.db, str(self.port), self.user, *self.groups]

    def start(self, count=0):
        """Starts it. It serves any number of connections."""
        self.server = subprocess.Popen(self.words(), preexec_fn=end_with_parent, env=self.env)
        started_here.append(self.server)
        if not self.listens():
            sys.exit(f"bench: the anchor ended with {self.server.returncode}")
        return self
