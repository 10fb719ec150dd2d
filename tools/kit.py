"""The toolchain's command `rt` as a module: its own insides, which are no interface, so each user names those it
needs."""
import importlib.machinery
import importlib.util
import os
import shutil
import sys


KIT = "rattle-kit-13b"  # the oldest that the scripts are known to do with


def load(who, used):
    """The module, or an end of the script where the toolchain has one of these names no more."""
    found = shutil.which(os.environ.get("RT") or "rt")
    if not found:
        stop(who, "there is no rt: set RT or PATH")
    loader = importlib.machinery.SourceFileLoader("rt", os.path.realpath(found))
    made = importlib.util.module_from_spec(importlib.util.spec_from_loader("rt", loader))
    sys.modules["rt"] = made
    loader.exec_module(made)
    for name in used.split():
        it = made
        for part in name.split("."):
            if not hasattr(it, part):
                stop(who, f"{found} has no {name}: this script was written for the kit {KIT} and has to follow rt")
            it = getattr(it, part)
    return made


def stop(who, why):
    print(f"{who}: {why}\n0 passed, 1 failed", flush=True)
    sys.exit(1)
