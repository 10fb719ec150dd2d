"""The commands that a document shows, and a shell to which they are given."""
import os
import re
import subprocess

from served import end_with_parent, started_here, text_of

ELSEWHERE = ("make build", "apt-get ")  # how a command begins that is not done
OF_QUICK = "quick build: "  # how the lines begin that the quick build adds
# with make's own a `make` of a document would say that it is below another
NOT_GIVEN = ("MAKEFLAGS", "MAKELEVEL", "MFLAGS", "FILEROOM")


def commands(top, document, heading, level=2):
    """Each command of a section, with the lines that it is to print."""
    section = text_of(os.path.join(top, document)).partition(f"\n{'#' * level} {heading}\n")[2]
    section = re.split(rf"\n#{{2,{level}}} ", section)[0]
    found = []
    for line in re.findall("(?m)^    (.*)$", section):
        if line.startswith("#> "):
            found[-1][1].append(line[3:])
        else:
            found.append((line, []))
    return [it for it in found if not it[0].startswith(ELSEWHERE)]


def as_told(said, told):
    """The lines that are due: those that are said, where they are the document's, in which `..` stands for any text.
    (The quick build's own count nothing.)"""
    lines = [it for it in said if not it.startswith(OF_QUICK)]
    patterns = [".*".join(map(re.escape, it.split(".."))) for it in told]
    return said if len(lines) == len(told) and all(map(re.fullmatch, patterns, lines)) else told


class Shell:
    """One bash, which is given line after line."""

    END = "= that was it:"

    def __init__(self, folder, **env):
        pipes = {"stdin": subprocess.PIPE, "stdout": subprocess.PIPE, "stderr": subprocess.STDOUT, "text": True}
        around = {name: it for name, it in os.environ.items() if name not in NOT_GIVEN}
        env = {**around, "LC_ALL": "C", **env}
        self.bash = subprocess.Popen(["bash"], cwd=folder, env=env, preexec_fn=end_with_parent, **pipes)
        started_here.append(self.bash)

    def does(self, line):
        """The status, and the lines that are printed."""
        # (the last line may have no end: a reply of the room has none)
        self.bash.stdin.write(f"{line}\nprintf '\\n{self.END} %s\\n' $?\n")
        self.bash.stdin.flush()
        said = []
        for text in self.bash.stdout:
            if text.startswith(self.END):
                return int(text.removeprefix(self.END)), said if said[-1] else said[:-1]
            said.append(text.rstrip("\n"))
        return None, said

    def types(self, line, told, instead=None):
        """Does what stands in a document, or that in its place."""
        status, said = self.does(instead or line)
        assert (line, status, said) == (line, 0, as_told(said, told))
