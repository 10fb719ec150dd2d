"""Settings that act on a machine alone: each unit, with the drop-ins that systemd takes for it, each other drop-in and
file of the front has the lines of required.toml."""
import collections
import glob
import os
import re
import tomllib

import pytest
from served import HERE, bytes_of, text_of

from .machines import FOLDER

TOP = os.path.join(HERE, "..")
UNITS = "service/**/*.service", "service/**/*.socket", "service/**/*.timer"
REQUIRED = tomllib.loads(bytes_of(os.path.join(FOLDER, "required.toml")).decode())
HARDENED = REQUIRED.pop("hardened")
OF_IMAGE = "service/image/rooms-of-volume.service"  # root's own work in a container, behind no wall
# each drop-in as it is installed: of which units, its name, and where it stands in the checkout
DROP_INS = re.findall(r"(?m)^lib/systemd/system/(\S+)\.d/(\S+\.conf) 644 \$top/(\S+)$",
                      text_of(os.path.join(TOP, "service", "install")))


def sections(text, found=None):
    """Of a unit: the values of each key, by section, behind those that are found already."""
    found, section = {} if found is None else found, None
    for line in text.splitlines():
        if line.startswith("["):
            section = found.setdefault(line.strip("[] "), {})
        elif "=" in line and line.strip()[0] not in "#;":
            key, _, its = line.strip().partition("=")
            section.setdefault(key.strip(), []).append(its.strip())
    return found


def drop_ins(path):
    """Those that systemd takes for a unit, in its order: by its name, and by what that begins with up to a dash."""
    stem, kind = os.path.splitext(os.path.basename(path))
    names = {stem + kind} | {f"{stem[:at + 1]}{kind}" for at, it in enumerate(stem.partition("@")[0]) if it == "-"}
    return [source for _, of, source in sorted((name, of, source) for of, name, source in DROP_INS) if of in names]


def in_force(path):
    found = sections(text_of(os.path.join(TOP, path)))
    for it in drop_ins(path):
        sections(text_of(os.path.join(TOP, it)), found)
    return found


def test_each_unit_has_required_lines():
    units = {os.path.relpath(it, TOP) for one in UNITS for it in glob.glob(os.path.join(TOP, one), recursive=True)}
    assert units - {*REQUIRED} == set()
    assert drop_ins(OF_IMAGE) == []


@pytest.mark.parametrize("path", REQUIRED)
def test_required_lines(path):
    required = REQUIRED[path]
    if "lines" in required:
        lines = collections.Counter(it.strip() for it in text_of(os.path.join(TOP, path)).splitlines())
        assert collections.Counter(required["lines"]) - lines == collections.Counter()
        return
    found, shared = in_force(path), HARDENED if path.endswith(".service") and path != OF_IMAGE else {}
    for section in {**required, **shared}:
        lines = required.get(section, []) + shared.get(section, [])
        want = sections("\n".join([f"[{section}]", *lines]))[section]
        assert {key: found.get(section, {}).get(key) for key in want} == want, section
