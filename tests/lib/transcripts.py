"""Scenes of what is typed and what is said of it, as texts; tests/around/client/commands.txt tells their
form."""
import re
import subprocess

from served import text_of

TYPED = re.compile(r"  (?:(\w+) )?\$ (?:(.*) \| (?=room ))?(.*)")


def scenes(path):
    """By the name of each scene the lines that are typed, each with those that follow it."""
    found = {}
    for scene in re.split("(?m)^== ", text_of(path))[1:]:
        head, *lines = scene.rstrip("\n").split("\n")
        name, _, after = head.partition(" after ")
        found[name] = [*found[after]] if after else []
        for line in lines:
            if TYPED.fullmatch(line):
                found[name].append((line, []))
            elif line.startswith("  "):
                found[name][-1][1].append(line[2:])
    return found


def by_shell(line, folder, **env):
    how = {"cwd": folder, "capture_output": True, "timeout": 300, "env": env or None}
    done = subprocess.run(["bash", "-c", line], **how)
    return done.returncode, done.stdout.decode(), done.stderr.decode()


def lines_of(status, *texts):
    """What a command says, in lines: its output, its faults, and its status where that is not 0."""
    lines = [line for text in texts for line in re.findall(r".+\n?|\n", text)]
    told = [it.removesuffix("\n") + " (no-eol)" * (not it.endswith("\n")) for it in lines]
    return told + [f"[{status}]"] * (status != 0)


def as_told(said, told):
    """The lines that are due: those that are said, where each is as it is told."""
    fits = lambda it, one: re.fullmatch(one.removesuffix(" (re)"), it) if one.endswith(" (re)") else it == one
    return said if len(said) == len(told) and all(map(fits, said, told)) else told
