"""What no status tells: one administrator waits for another, bytes are on the disk before their name is, a stop leaves
no room without its log, a room that is just starting comes back after its backup, and ports change in one step."""
import fcntl
import os
import re
import shutil
import subprocess
import sys

import pytest
from served import HERE, bytes_of, put_file, text_of, until

from .contents import BACKUP, SERVICE
from .machines import ADMIN, TOLD

# Calls fileroom-admin, and says of each rename and each folder whether the disk has it, and of what others can read.
ORDER = """import os, sys
sys.path.insert(0, sys.argv[1])
from fileroom_admin.command import main
kept, told = {}, os.fdopen(os.dup(1), "w")  # how many bytes of each
def fsync(handle, task=os.fsync):
    kept[os.path.realpath(f"/proc/self/fd/{handle}")] = os.fstat(handle).st_size
    return task(handle)
def replace(old, new, task=os.replace, **how):
    is_kept = kept.get(os.path.realpath(old)) == os.path.getsize(old) and all(
        os.path.dirname(os.path.realpath(it)) in kept for it in before if it.endswith(".journal"))
    print("renamed" if is_kept else "NOT KEPT", new, file=told, flush=True)
    kept.pop(os.path.dirname(os.path.realpath(new)), None)
    before.append(new)
    return task(old, new, **how)
def chmod(path, mode, task=os.chmod):
    if os.stat(path).st_mode & 0o077:
        print("OPEN", path, file=told, flush=True)
    return task(path, mode)
def run(*words, task=__import__("subprocess").run, **how):
    left = [it for it in before if os.path.dirname(os.path.realpath(it)) not in kept]
    print("run", words[0][0], left, file=told, flush=True)
    return task(*words, **how)
before = []
os.fsync, os.replace, os.chmod = fsync, replace, chmod
__import__("subprocess").run = run
sys.exit(main(sys.argv[2:]))
"""


def test_one_waits(machine):
    """Two calls at once would undo each other's. Who is to be held is so at once."""
    machine.does("user", "list")
    with open(machine.at("etc/fileroom/admin.lock"), "rb+") as lock:
        fcntl.flock(lock, fcntl.LOCK_EX)
        words = [sys.executable, "-B", ADMIN, "--root", machine.root, "user", "name", "ann", "Ann"]
        other = subprocess.Popen(words, env=machine.env, stdout=subprocess.DEVNULL)
        names, waits = machine.at("etc/nginx/fileroom/names.json"), rf"-> FLOCK +ADVISORY +WRITE {other.pid} "
        until(lambda: other.poll() is not None or re.search(waits, text_of("/proc/locks")))
        assert (other.poll(), text_of(names)) == (None, "{}\n")
        for it in "hold", "release":  # (fail2ban asks for these)
            assert machine.does("user", it, "plans", "bob")[0] == 0
    assert (other.wait(300), text_of(names)) == (0, '{"ann": "Ann"}\n')


def test_what_a_stopped_call_had_begun_goes(machine):
    """Before it said in its journal what is to happen, in each folder that has a file of ours."""
    left = [machine.at(f"{at}/.it.fileroom-{end}") for end in ("new", "old") for at in (
        "etc/fileroom", "etc/logrotate.d", "etc/nginx", "etc/nginx/conf.d", "etc/nginx/modules-enabled",
        "var/log/fileroom", "var/log/nginx", "etc/nginx/fileroom",
        *(f"etc/nginx/fileroom/{it}" for it in ("dav", "queues", "rooms", "signin", "tls")))]
    for it in left:
        machine.write(it, "half")
    assert machine.does("user", "list")[0] == 0
    assert [*filter(os.path.exists, left)] == []


def test_kept_first(machine):
    """Each file is on the disk, whole, before it has its name, and its name before what reads it is asked, what is to
    happen before it begins; and until a file has its owner nobody else reads it."""
    words = [sys.executable, "-B", "-c", ORDER, os.path.dirname(ADMIN), "--root", machine.root, "user", "add", "plans",
             "kim", "eng"]
    done = subprocess.run(words, env=machine.env, capture_output=True, text=True)
    lines = [it for it in done.stdout.splitlines() if it.split()[0] in ("renamed", "NOT", "OPEN", "run")]
    assert done.returncode == 0, done.stderr
    assert [it.split()[0] for it in lines if not it.startswith("run")] == ["renamed"] * 5
    assert [it for it in lines if it.startswith("run") and not it.endswith("[]")] == []


@pytest.mark.parametrize("most", range(7))
def test_a_restore_that_ends_at_a_step(machine, folder, most):
    """It leaves no room whose log is not there yet."""
    copy, there, steps = (os.path.join(folder, it) for it in ("copy", "there", "steps"))
    whole = {"room.db": b"room", "room.db-wal": b"log"}
    os.mkdir(copy)
    os.mkdir(there)
    for it, data in whole.items():
        put_file(os.path.join(copy, it), data)
    # (each command of the script counts, and the last one ends it)
    for name in "cp", "mv", "sync":
        machine.stand_in(name, f"""echo >>{steps}
[ "$(wc -l <{steps})" -le {most} ] || kill -9 $PPID
exec /bin/{name} "$@" """)
    words = [BACKUP, "--restore", copy, os.path.join(there, "room.db")]
    status = subprocess.run(words, env=machine.env, capture_output=True).returncode
    has = {it: bytes_of(os.path.join(there, it)) for it in os.listdir(there) if it in whole}
    assert (status == 0) == (most >= 5)
    assert "room.db" not in has or has == whole


def test_a_backup_is_on_the_disk_before_it_has_its_name(machine):
    """And its name before it is told; the front's files too."""
    for name in "mv", "sync":
        machine.stand_in(name, f'{TOLD}exec /bin/{name} "$@"')
    machine.told()
    made = os.path.basename(machine.backed_up())
    subprocess.run([BACKUP, "--front", os.path.join(machine.folder, "front")], check=True,
                   env=machine.env | {"ETC": machine.at("etc")}, stdout=subprocess.DEVNULL)
    told = [re.sub(r"new-\w+", "new", it) for it in machine.told()]
    day = made.partition("T")[0]
    assert told == [f"mv -T ./.new .copied-{made}", f"sync -f .copied-{made}/room.db", f"mv -T .copied-{made} {made}",
                    "sync -f .", "sync -f ./.new/it", f"mv -T ./.new/it {day}.tar.gz"]


@pytest.mark.parametrize("state, want", [("active", ["start"]), ("activating", ["start"]), ("inactive", []),
                                         ("failed", [])])
def test_a_room_comes_back_after_its_backup(machine, folder, state, want):
    """Also one that ends by a fault again and again, so that systemd is starting it."""
    env = {**machine.env, "ETC": machine.at("etc"), "RUN": folder}
    machine.stand_in("systemctl", f'echo "$@" >>"{folder}/asked"; [ "$1" != is-active ] || echo {state}')
    for words in ["plans"], ["--end", "plans"], ["--end", "plans"]:
        subprocess.run([os.path.join(SERVICE, "fileroom-rest"), *words], env=env, check=True)
    asked = [it.split()[0] for it in text_of(os.path.join(folder, "asked")).splitlines()]
    assert asked == ["is-active", "stop", *want]


@pytest.mark.parametrize("hosts", [[], ["10.0.0.1\n10.0.0.2\n"], ["10.0.0.1\n10.0.0.2\n", "10.0.0.3\n"]],
                         ids=["no standby", "a standby", "two"])
def test_ports(machine, folder, hosts):
    """All rules by one call: between two, whoever comes would meet none. The hosts of each room may come."""
    machine.stand_in("nft", f'echo "$@" >>"{folder}/nft"; cat >>"{folder}/rules"')
    os.mkdir(os.path.join(folder, "standby"))
    for it in "service/fileroom-ports", "front/fileroom.nft", "service/standby/gluster.nft":
        shutil.copy(os.path.join(HERE, "..", it), os.path.join(folder, "standby" * ("standby" in it)))
    for room, its in zip(("plans", "club"), hosts):
        machine.write(f"etc/fileroom/{room}.hosts", its)
    env = {**machine.env, "ROOMS": machine.at("etc/fileroom")}
    subprocess.run([os.path.join(folder, "fileroom-ports")], env=env, check=True)
    rules = text_of(os.path.join(folder, "rules"))
    assert text_of(os.path.join(folder, "nft")) == "-f -\n"
    assert {*re.findall(r"add element inet fileroom hosts { (\S+) }", rules)} == {*"".join(hosts).split()}
    assert "table inet fileroom" in rules
