"""`fileroom-roster`: a directory's users as a table of rooms, whole or not at all; and the timer's sync by it."""
import contextlib
import json
import os
import socket
import subprocess
import sys
import threading

import pytest
from nginx import certified
from served import HANGS, put_file, text_of
from slapd import BASE, TLS, WORD

from .contents import SERVICE
from .directory import GROUPS, PEOPLE, Directory, InParts, group, of, of_group, person

PROGRAM = os.path.join(SERVICE, "roster", "fileroom-roster")
ENTRIES = (
    person("ann", "Ann Öz"), person("Bob"), person("kim", "x" * 65), person("lou"), person("eve"),
    person("a@b"), group("All Teachers", of("ann"), of_group("inner")),
    group("inner", of("bob"), of_group("All Teachers"), "cn=gone,dc=school,dc=example"),
    group("posix", "kim", "nobody", kind="posixGroup", is_in="memberUid"),
    group("unique", of("lou"), of("a@b"), kind="groupOfUniqueNames", is_in="uniqueMember"),
    group("twice", of("eve")), group("left", "cn=gone,dc=school,dc=example"),
    f"dn: ou=more,{GROUPS}\nobjectClass: organizationalUnit\n", group("twice", of("lou"), base=f"ou=more,{GROUPS}"))
ROOMS = """[rooms.plans]
"all teachers" = "teachers"
inner = "inner"
[rooms.club]
posix = "members"
unique = "members"
"cn=twice,ou=more,ou=groups,dc=school,dc=example" = "more"
[local.plans]
ann = ["eng"]
lou = []
zed = []
"""
TABLE = ["user,rooms,groups,name", "bob,plans,inner teachers,Bob", "kim,club,members,", "lou,club,members more,lou",
         "ann,plans,eng,", "lou,plans,,", "zed,plans,,"]


@pytest.fixture
def read(folder):
    """What is read by these lines of a conf."""
    def by(*urls, rooms=ROOMS, more="", users=PEOPLE):
        path = os.path.join(folder, "roster.conf")
        put_file(path, f'servers = {json.dumps(urls)}\nusers = {json.dumps(users)}\ngroups = "{GROUPS}"\n'
                       f"{more}\n{rooms}")
        return said(path)

    return by


def said(*words):
    done = subprocess.run([sys.executable, "-I", PROGRAM, *words], capture_output=True, text=True, timeout=HANGS)
    return done.returncode, done.stdout, done.stderr


@pytest.fixture
def serve(folder):
    """Makes a directory with these entries."""
    made = []

    def one(*entries, **how):
        made.append(Directory(folder, *(entries or ENTRIES), **how))
        return made[-1].url

    yield one
    for it in made:
        it.stop()


def test_the_table(read, serve):
    """Groups in groups, in a ring too, of three kinds, by name and by DN; a login in small letters; who is local to a
    room is there as the conf has it, and in others as the directory does."""
    status, table, faults = read(serve())
    assert (status, faults) == (0, "fileroom-roster: left out, since no room takes the name: 'a@b'\n")
    assert sorted(table.splitlines()) == sorted(TABLE)


def test_the_table_is_one_that_sync_reads(machine, read, serve):
    """Who comes has no password here, and the name that somebody local has stays."""
    status, table, _ = read(serve())
    machine.write("../table.csv", f"{table}ann,club,eng,\n")
    assert machine.does("user", "name", "ann", "Ann Smith")[0] == 0
    machine.told()
    words = "user", "import", "--sync", "--no-passwords", os.path.join(machine.folder, "table.csv")
    done, told, faults = machine.does(*words)
    assert (status, done, faults) == (0, 0, "")
    assert "plans: bob, in inner, teachers (was in eng)\n" in told and "kim," not in told.replace("kim, in", "")
    assert text_of(machine.at("etc/fileroom/club.toml")).splitlines()[1:] == [
        'ann = ["eng"]', 'kim = ["members"]', 'lou = ["members", "more"]']
    assert "zed = []" in text_of(machine.at("etc/fileroom/plans.toml")).splitlines()
    assert not [it for it in machine.told() if "restart" in it]
    logins = text_of(machine.at("etc/nginx/fileroom/users")).splitlines()
    assert [it.partition(":")[0] for it in logins] == ["ann", "bob"]
    assert text_of(machine.at("etc/nginx/fileroom/names.json")) == '{"ann": "Ann Smith", "bob": "Bob", "lou": "lou"}\n'


def test_more_than_a_directory_gives_at_once(read, serve):
    users = [f"u{it}" for it in range(600)]
    url = serve(*map(person, users), group("all", *map(of, users)))
    status, table, _ = read(url, rooms='[rooms.plans]\nall = "staff"\n')
    assert (status, len(table.splitlines())) == (0, 601)


def test_a_group_whose_members_come_in_parts(read):
    it = InParts([f"u{it}" for it in range(25)], 10)
    try:
        status, table, faults = read(it.url, rooms='[rooms.plans]\nall = "staff"\n')
    finally:
        it.end()
    assert (status, faults, len(table.splitlines())) == (0, "", 26)
    assert it.asked == ["member;range=0-*", "member;range=10-*", "member;range=20-*"]


@pytest.mark.parametrize("code", [0, 3])
def test_a_group_whose_second_part_does_not_come(read, code):
    """It has no fewer members by that."""
    it = InParts([f"u{it}" for it in range(25)], 10, ends_with=code)
    try:
        status, table, faults = read(it.url, rooms='[rooms.plans]\nall = "staff"\n')
    finally:
        it.end()
    assert (status, table) == (1, "") and "not all members" in faults


ODD_NAME = "CONF: a user or group of a room is 1 to 32 letters, digits, '.', '_' or '-': 'a b' is not"


@pytest.mark.parametrize("rooms, more, why", [
    ('[rooms.plans]\nnone = "x"\nlost = "y"\n', "", "nothing is written: the directory has no group none; the "
     "directory has no group lost; no user of the directory is in any of the groups"),
    ('[rooms.plans]\nunique = "x"\nlost = "y"\n', "", "nothing is written: the directory has no group lost"),
    ('[rooms.plans]\ntwice = "x"\n', "", "nothing is written: the directory has 2 groups twice: name one by its DN; no "
     "user of the directory is in any of the groups"),
    ('[rooms.plans]\nposix = "x"\n[rooms.club]\nleft = "y"\n', "", "nothing is written: nobody would be in the room "
     "club, where all would stay"),
    ('[rooms.plans]\nunique = "a b"\n', "", ODD_NAME),
    ('[rooms.plans]\nunique = "a"\n[local.plans]\n"a b" = []\n', "", ODD_NAME),
    ("", "", "CONF: it lacks rooms, and nobody reads nothing"),
    (ROOMS, "colour = 1", "CONF: it lacks nothing, and nobody reads colour"),
    (ROOMS, 'reader = "cn=admin,dc=school,dc=example"\nreader-password = "another"', "the directory: "
     "LDAPInvalidCredentialsResult - 49 - invalidCredentials - None - None - bindResponse - None")])
def test_what_is_not_whole_is_not_written(read, serve, folder, rooms, more, why):
    status, table, faults = read(serve(), rooms=rooms, more=more)
    conf = os.path.join(folder, "roster.conf")
    assert (status, table, faults) == (1, "", f"fileroom-roster: {why.replace('CONF', conf)}\n")


def test_by_a_reader(read, serve):
    more = f'reader = "cn=admin,dc=school,dc=example"\nreader-password = "{WORD}"'
    url = serve(more="require authc")
    assert read(url, more=more)[0] == 0
    assert read(url)[:2] == (1, "")
    status, table, faults = read("ldap://127.0.0.1:9", "ldap://127.0.0.1:8")
    assert (status, table) == (1, "") and "ldap://127.0.0.1:9: " in faults and "ldap://127.0.0.1:8: " in faults
    assert read("ldap://127.0.0.1:9", url, more=more)[0] == 0


def test_a_part_that_is_elsewhere(read, serve):
    """The reader's password does not follow a referral, and what is there is not left out."""
    got = []
    with socket.create_server(("127.0.0.1", 0)) as other:
        threading.Thread(target=takes, args=(other, got), daemon=True).start()
        at = f"ldap://127.0.0.1:{other.getsockname()[1]}/{PEOPLE}"
        away = f"dn: ou=away,{BASE}\nobjectClass: referral\nobjectClass: extensibleObject\nou: away\nref: {at}\n"
        more = f'reader = "cn=admin,{BASE}"\nreader-password = "{WORD}"'
        url = serve(*ENTRIES, away)
        status, table, faults = read(url, users=[PEOPLE, f"ou=away,{BASE}"], more=more)
    assert (status, table, faults, got) == (1, "", f"fileroom-roster: ou=away,{BASE} is not here: referral\n", [])
    assert read(url, more=more)[0] == 0


def test_a_part_below_that_is_elsewhere(read, serve):
    """Who is there would go from the rooms, where nobody told."""
    away = f"dn: ou=away,{PEOPLE}\nobjectClass: referral\nobjectClass: extensibleObject\nou: away\nref: ldap://a.b/\n"
    assert read(serve(*ENTRIES, away)) == (
        1, "", f"fileroom-roster: a part of {PEOPLE} is not here, but at ldap://a.b/ou=away,{PEOPLE}??sub\n")


def takes(listener, got):
    """Whatever somebody sends there."""
    with contextlib.suppress(OSError), listener.accept()[0] as line:
        got.append(line.recv(4096))


def test_a_login_that_is_written_as_somebody_elses_dn(read, serve):
    """Does not take that one's place in a group."""
    entry = f"dn: cn=kai,{PEOPLE}\nobjectClass: inetOrgPerson\ncn: kai\nsn: x\nuid: {of('bob')}\n"
    status, table, _ = read(serve(*ENTRIES, entry))
    assert (status, sorted(table.splitlines())) == (0, sorted(TABLE))


@pytest.mark.parametrize("login", ["logged-out", "Logged-Out", "\u212aim", "b\u00f6b", "", "-" * 33])
def test_a_login_that_no_room_takes(read, serve, login):
    """Is left out, and the others come: one that the table has would be refused with all of it."""
    entry = f"dn: cn=kai,{PEOPLE}\nobjectClass: inetOrgPerson\ncn: kai\nsn: x\n" + f"uid: {login}\n" * bool(login)
    its = group("some", of("bob"), f"cn=kai,{PEOPLE}")
    status, table, faults = read(serve(person("bob"), entry, its), rooms='[rooms.plans]\nsome = "eng"\n')
    assert (status, table) == (0, "user,rooms,groups,name\nbob,plans,eng,bob\n")
    assert faults.startswith("fileroom-roster: left out, since no room takes the name: ")


def test_two_people_of_one_login(read, serve):
    """Are no one user. (Who has none, or one that no room takes, is left out as before.)"""
    more = [f"dn: {kind}={user},ou=more,{GROUPS}\nobjectClass: inetOrgPerson\ncn: {user}\nsn: x\nuid: {user}\n"
            for kind, user in (("uid", "LOU"), ("uid", "a@b"))]
    its = [f"{kind}={user},ou=more,{GROUPS}" for kind, user in (("uid", "LOU"), ("uid", "a@b"))]
    url = serve(*ENTRIES, *more, group("others", *its))
    status, table, faults = read(url, users=[PEOPLE, GROUPS], rooms=ROOMS.replace("[local", 'others = "x"\n[local'))
    assert (status, table, faults) == (1, "", "fileroom-roster: nothing is written: these have one login, lou: "
                                              f"{its[0].lower()} and {of('lou')}\n")


def test_two_people_of_one_login_in_a_group_of_logins(read, serve):
    """It does not say whose it is."""
    more = f"dn: uid=kim,ou=more,{GROUPS}\nobjectClass: inetOrgPerson\ncn: kim\nsn: x\n"
    status, table, faults = read(serve(*ENTRIES, more), users=[PEOPLE, GROUPS])
    assert (status, table, "these have one login, kim: " in faults) == (1, "", True), faults


def test_a_login_among_several(read, serve):
    """Is the one that its DN has: by that it logs in."""
    entry = person("rob").replace("sn: x", "sn: x\nuid: Robert\nuid: rob")
    status, table, _ = read(serve(entry, group("some", of("rob"))), rooms='[rooms.plans]\nsome = "eng"\n')
    assert (status, table) == (0, "user,rooms,groups,name\nrob,plans,eng,rob\n")


def test_a_table_that_cannot_be_written_whole(read, serve, folder):
    """Nothing of it is there where the directory fails, and no password goes anywhere unencrypted."""
    table = os.path.join(folder, "table.csv")
    url = serve()
    assert read(url)[0] == 0
    conf = os.path.join(folder, "roster.conf")
    assert said(conf, table)[0] == 0 and text_of(table).splitlines()[0] == TABLE[0]
    assert read("ldap://dc1.school.example")[2] == (
        f"fileroom-roster: {conf}: ldap://dc1.school.example would send passwords and names unencrypted: ldaps://, or "
        "start-tls = true\n")


@pytest.mark.parametrize("scheme, more", [("ldaps", ""), ("ldap", "start-tls = true\n")])
def test_the_certificate_counts(read, serve, tmp_path_factory, scheme, more):
    names = ("right", "DNS:localhost"), ("other", "DNS:elsewhere.example")
    pairs = {it: certified(str(tmp_path_factory.mktemp(it)), name) for it, name in names}
    url = serve(more=TLS.format(*pairs["right"]), scheme=scheme, host="localhost")
    told = {it: read(url, more=f'{more}ca-file = "{cert}"') for it, (cert, _) in pairs.items()}
    assert (told["right"][0], told["other"][:2]) == (0, (1, ""))
    assert "certificate" in told["other"][2]


def test_a_certificate_of_another_name(read, serve, tmp_path_factory):
    pair = certified(str(tmp_path_factory.mktemp("other")), "DNS:elsewhere.example")
    url = serve(more=TLS.format(*pair), scheme="ldaps", host="localhost")
    status, table, faults = read(url, more=f'ca-file = "{pair[0]}"')
    assert (status, table) == (1, "") and "match" in faults


@pytest.mark.parametrize("name, line", [
    ("servers", 'servers = "ldaps://dc1.school.example"'), ("servers", "servers = [7]"), ("users", "users = {}"),
    ("reader", "reader = 7"), ("rooms", "[rooms]\nplans = 7"), ("rooms", "[rooms.plans]\nteachers = 7"),
    ("local", "[local.plans]\nann = 7"), ("local", "[local]\nplans = 7")])
def test_a_conf_of_another_form(tmp_path, name, line):
    """It is told which line, before anybody is asked."""
    lines = {"servers": 'servers = ["ldaps://127.0.0.1:1"]', "users": f'users = "{PEOPLE}"',
             "groups": f'groups = "{GROUPS}"', "rooms": '[rooms.plans]\nteachers = "teachers"'}
    path = tmp_path / "roster.conf"
    path.write_text("\n".join(sorted({**lines, name: line}.values(), key=lambda it: it.startswith("["))))
    assert said(path) == (1, "", f"fileroom-roster: {path}: `{name}` has another form than in the sample roster.conf\n")
