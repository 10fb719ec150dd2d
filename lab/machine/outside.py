"""Somebody at a desk: chromium on this machine, before the front of the one that it has booted, whose cable ends here.

The room is reached by the name and the address for which its own authority vouches. A browser that does not trust that
authority shows nothing of it.
"""
import json
import os
import shutil
import subprocess
import sys

from served import HERE, text_of

sys.path.append(os.path.join(HERE, "around"))
from browser import Browser
from page.club import make_new

OWN, NAMES = "192.168.1.4/24", ("room.lan", "192.168.1.5")
LACKS = {"chromium": "chromium", "chromedriver": "chromium-driver", "certutil": "libnss3-tools"}


def lacking():
    return [package for program, package in LACKS.items() if not shutil.which(program)]


def said(*words):
    return subprocess.run(words, capture_output=True, text=True, check=True).stdout


def trusts(home, authority):
    """By the line of RUNNING: a browser that has run once has this store."""
    store = os.path.join(home, ".local", "share", "pki", "nssdb")
    said("certutil", "-d", f"sql:{store}", "-A", "-t", "C,,", "-n", "room", "-i", authority)


def opened(home):
    os.makedirs(home, exist_ok=True)
    return Browser(home, "--host-resolver-rules=MAP room.lan 192.168.1.5")


def look(home, its, root, tally):
    """By name and by address; a folder that is made is there."""
    browser = opened(home)
    for name in NAMES:
        browser.go(f"https://{name}/")
        tally.differs(f"{name}, not trusted", browser.sees("NET::ERR_CERT_AUTHORITY_INVALID"), True)
    browser.close()
    trusts(home, os.path.join(root, its["authority"].lstrip("/")))
    browser = opened(home)
    for name in NAMES:
        browser.go(f"https://ann:{its['password']}@{name}/log-in")
        browser.sees("ann", "#user")
        tally.differs(f"{name} is seen by https", browser.script("return [location.protocol, isSecureContext]"),
                      ["https:", True])
    browser.go(f"https://{NAMES[-1]}/#open/plans")
    browser.sees("plans", "h1")
    make_new(browser, "New folder")
    browser.fill("Name", "from-elsewhere")
    browser.press("Create")
    browser.sees("from-elsewhere created.")
    # (what the front has only where WebDAV, or a warning, is there)
    unset = [f"https://{name}/{it}.json - Failed" for name in NAMES for it in ("dav", "warnings")]
    tally.differs("complaints", [it for it in browser.complaints() if not it.startswith(tuple(unset))], [])
    browser.close()


def visit(root, cable, folder, tally, ended):
    """Once the machine waits for it, if it does."""
    waits = os.path.join(root, "root", "waits")
    while not os.path.exists(waits):
        if ended.wait(0.3):
            return
    try:
        tally.differs("programs that lack here", lacking(), [])
        said("ip", "address", "add", OWN, "dev", cable)
        said("ip", "link", "set", cable, "up")
        way = said("ip", "route", "get", NAMES[1])
        tally.need(f" dev {cable} " in way, f"another cable leads to {NAMES[1]}, as of a second run: {way}")
        look(folder, json.loads(text_of(waits)), root, tally)
    finally:
        os.remove(waits)
