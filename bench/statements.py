"""Which SQL texts the program's calls of the library hand over, read off its own machine code.

The compiler puts the functions of room_sql into their callers, so a call is told by its place: right before it the
begin and the length of the text are put into %rdx and %ecx, there or on a way that ends in a jump to there. Needs
objdump.
"""
import collections
import re
import subprocess

from served import PROGRAM

BEGIN, LENGTH = re.compile(r"lea .*,%rdx +# ([0-9a-f]+)"), re.compile(r"mov +\$0x([0-9a-f]+),%ecx")
JUMP = re.compile(r"j\w+ +([0-9a-f]+) ")
NEAR = 16  # instructions


class Code:
    """The program's instructions."""

    def __init__(self):
        told = subprocess.check_output(["objdump", "-d", "--no-show-raw-insn", PROGRAM], text=True)
        self.lines = [(int(at, 16), it) for at, it in re.findall(r"(?m)^ +([0-9a-f]+):\t(.*)$", told)]
        self.index = {at: n for n, (at, _) in enumerate(self.lines)}
        self.jumps = collections.defaultdict(list)
        for n, (_, it) in enumerate(self.lines):
            if found := JUMP.match(it):
                self.jumps[int(found[1], 16)].append(n)
        with open(PROGRAM, "rb") as file:
            self.bytes = file.read()

    def ways(self, n, left=NEAR, begin=None, length=None):
        """On each way to the n-th instruction, the place where the begin of a text is put, and the text."""
        for left in range(left, 0, -1):
            for source in self.jumps[self.lines[n][0]]:
                yield from self.ways(source, left - 1, begin, length)
            n -= 1
            at, it = self.lines[n]
            if it.startswith(("call", "jmp", "ret")):
                return
            begin = begin or (BEGIN.match(it) and (at, int(BEGIN.match(it)[1], 16)))
            length = length or (LENGTH.match(it) and int(LENGTH.match(it)[1], 16))
            if begin and length:  # (what is only read lies in the file where it lies in memory)
                yield begin[0], self.bytes[begin[1] : begin[1] + length].decode("latin-1")
                return

    def texts(self, place, ran):
        """The texts that the call at a place handed over, with their parts of its calls: how often each place ran tells
        which way was taken."""
        found = [(text, ran.get(at, 0)) for at, text in self.ways(self.index[place]) if re.match("[A-Z]+ ", text)]
        count = sum(times for _, times in found)
        return [(text, times / count) for text, times in found if times]
