"""What the command line of a script says."""
import argparse
import sys


def options(*words, **given):
    """Each of `given` as its `--name VALUE`, of the type of what stands here and that where nothing is said (False: as
    `--name` alone); with `words` also what stands behind, as a list under this name. `--help` shows the script's own
    text."""
    about = sys.modules["__main__"].__doc__
    parser = argparse.ArgumentParser(description=about, formatter_class=argparse.RawDescriptionHelpFormatter)
    for name, it in given.items():
        how = {"action": "store_true"} if it is False else {"type": type(it), "metavar": name.upper()}
        parser.add_argument(f"--{name}", default=it, help=f"else {it}" if it else None, **how)
    for name in words:
        parser.add_argument(name, nargs="*")
    return parser.parse_args()
