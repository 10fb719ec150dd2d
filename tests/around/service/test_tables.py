"""The users of several rooms become those of a table: one change, whole or not at all."""
import os

from served import text_of

from .machines import Served
from .stopped import stops


def test_what_is_typed_and_said(both_backed_up):
    both_backed_up.plays("tables.txt")


def test_stopped_at_a_step(both_backed_up):
    machine = both_backed_up
    machine.write("../table.csv", "user,rooms,groups,name\nann,club plans,eng,Ann\nkim,plans club,staff,Kim\n")
    stops(machine, "user", "import", "--sync", os.path.join(machine.folder, "table.csv"))


def test_the_owner_of_a_room_without_a_backup_stays(machine, plans):
    """The room itself says whose it is, and where it is down nobody does; and who owns it later, the backup."""
    machine.write("../table.csv", "user,rooms\nbob,plans\n")
    path = os.path.join(machine.folder, "table.csv")
    before = text_of(machine.at("etc/fileroom/plans.toml"))
    assert machine.does("user", "import", "--sync", path) == (
        1, "", "fileroom-admin: ann is not in the table, and owns the room plans\n"
        f"fileroom-admin: nothing was changed: 1 faults in {path}\n")
    assert text_of(machine.at("etc/fileroom/plans.toml")) == before
    plans.end()
    assert machine.does("user", "import", "--sync", path)[2].startswith(
        "fileroom-admin: no backup here tells who owns plans, and the room does not answer")
    assert text_of(machine.at("etc/fileroom/plans.toml")) == before
    machine.backed_up()
    plans = Served(machine)
    assert machine.does("user", "import", "--sync", path)[0] == 1
    assert plans.askers == set()


def test_who_stays_is_held_on(machine, plans):
    """Whoever goes, or comes."""
    held = lambda: sorted(os.listdir(machine.at("etc/nginx/fileroom/held")))
    machine.does("user", "add", "plans", "kim")
    for user in "bob", "kim":
        machine.does("user", "hold", "plans", user)
    for table, left in ("ann,plans\nbob,plans\nkim,plans\nlou,plans\n", ["bob@plans", "kim@plans"]), (
            "ann,plans\nbob,plans\nlou,plans\n", ["bob@plans"]):
        machine.write("../table.csv", f"user,rooms\n{table}")
        status, _, faults = machine.does("user", "import", "--sync", os.path.join(machine.folder, "table.csv"))
        assert (status, held()) == (0, left), faults


def test_what_those_own_who_go_is_told_by_numbers(machine, plans):
    """Of many one line each, and with a large file as one thing."""
    entry = {"type": 0, "flag": 3, "mask": 0x1F07FF}
    entries = [entry | {"who": it} for it in ("OWNER@", "EVERYONE@")]
    plans.holds("ann", "SETLIST", "/", aclflag=0, entries=entries)
    for it in "/f", "/f/.room-pieces-0123456789abcdef", "/f/.room-pieces-0123456789abcdef/000", "/g", "/.room-note":
        plans.holds("bob", "MKDIR", it)
    plans.holds("ann", "SETLIST", "/g", aclflag=1, entries=[entry | {"who": "bob"}])
    plans.room.kill()
    backup = os.path.basename(machine.backed_up())
    plans.room.start()
    machine.write("../table.csv", "user,rooms\nann,plans club\n")
    status, said, faults = machine.does("user", "import", "--sync", os.path.join(machine.folder, "table.csv"))
    assert (status, faults) == (0, "")
    assert said.splitlines()[-1] == (
        f"plans: bob owns 3 things and is named in 1 lists, by the backup {backup}: fileroom-admin user owns bob")
