"""What a script prints: first what its figures were measured on, then tables, and the load as it ends."""
import atexit
import os
import subprocess
import sys
import time

from served import HERE, PROGRAM, SCRIPT, work_folder


def flushes(folder):
    """How often a second it takes 4 KiB for good."""
    with open(os.path.join(folder, "flushed"), "wb", buffering=0) as file:
        file.write(bytes(1 << 20))
        os.fsync(file)
        start = time.perf_counter()
        for n in range(500):
            os.pwrite(file.fileno(), bytes(4096), n % 256 * 4096)
            os.fdatasync(file)
        return 500 / (time.perf_counter() - start)


def said(*words):
    return subprocess.run(words, capture_output=True, text=True).stdout.strip()


def load():
    return " ".join(f"{it:.1f}" for it in os.getloadavg())


def model():
    with open("/proc/cpuinfo", encoding="utf-8") as file:
        return next((line.partition(":")[2].strip() for line in file if line.startswith("model name")), "not known")


def machine(is_timed=False):
    """Prints the date, this checkout's commit, the program's version, the machine and its load, and where times are
    told how often a second the disk takes 4 KiB for good; at the script's end the load once more."""
    print(f"{time.strftime('%Y-%m-%d')}, commit {said('git', '-C', HERE, 'rev-parse', '--short', 'HEAD')}, "
          f"{said(PROGRAM, '--version')}; {os.cpu_count()} processors, {model()}; load at the start: {load()}",
          flush=True)
    if is_timed:
        with work_folder() as folder:
            print(f"the disk: {flushes(folder):.0f} flushes a second", flush=True)
    atexit.register(lambda: print(f"load at the end: {load()}", flush=True))


def row(*cells):
    print(f"| {' | '.join(map(str, cells))} |", flush=True)


def heading(*cells):
    """The two lines that a table begins with."""
    row(*cells)
    row(*["---"] * len(cells))


def chosen(words):
    """The word of the command line, which is one of these, or "" where there is none. Another ends the script."""
    if len(sys.argv) > 2 or not {*sys.argv[1:]} <= {*words}:
        sys.exit(f"{SCRIPT}: it takes {'one of the words ' + ', '.join(words) if words else 'no words'}")
    return "".join(sys.argv[1:])
