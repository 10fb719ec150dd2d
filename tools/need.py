#!/usr/bin/env python3
"""need.py PART ..: sees that this machine has Debian's packages for these parts, as tools/packages lists them.

Root has them installed, which is told in one line. Anybody else is told the line to type, with status 1.
"""
import os
import shutil
import subprocess
import sys

LIST = os.path.join(os.path.dirname(os.path.abspath(__file__)), "packages")
PATH = os.pathsep.join([os.environ.get("PATH", ""), "/usr/sbin", "/sbin"])  # (where Debian has nginx)
APT = {**os.environ, "DEBIAN_FRONTEND": "noninteractive"}


def listed():
    """Each package, what shows that it is there, and the parts that need it."""
    with open(LIST, encoding="utf-8") as file:
        for line in file:
            package, look, *parts = line.partition("#")[0].split() or ("", "")
            if package:
                yield package, look, parts


def is_there(look):
    return os.path.exists(look) if look.startswith("/") else bool(shutil.which(look, path=PATH))


def lacking(parts):
    """The packages that these parts need and this machine lacks."""
    return [package for package, look, its in listed() if {*parts} & {*its} and not is_there(look)]


def install(packages):
    """Returns what apt-get says where it fails, or nothing."""
    for words in (["apt-get", "update", "-qq"], ["apt-get", "install", "-y", "-qq", *packages]):
        try:
            done = subprocess.run(words, env=APT, stdin=subprocess.DEVNULL, capture_output=True, text=True)
        except FileNotFoundError:
            return "there is no apt-get"
        if done.returncode:
            return (done.stdout + done.stderr).strip()[-300:]
    return ""


def need(who, parts):
    """Returns why these parts can't be had on this machine, or nothing."""
    packages = lacking(parts)
    if not packages:
        return ""
    line = f"apt-get install -y {' '.join(packages)}"
    if os.geteuid() != 0:
        return f"this machine lacks {', '.join(packages)}: as root, {line}"
    print(f"{who}: this machine lacks {', '.join(packages)}: {line}", flush=True)
    fault = install(packages)
    left = lacking(parts)
    return f"{line} did not bring {', '.join(left)}: {fault}" if left else ""


if __name__ == "__main__":
    sys.exit(need("need", sys.argv[1:]) or 0)
