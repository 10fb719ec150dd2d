"""`fileroom-admin signin`: a directory is asked or not, by front and service together; and how it is looked at.
(What the service answers: tests/around/front.)"""
import os
import subprocess
import sys
import tomllib

import pytest
from nginx import certified
from served import HERE, text_of
from slapd import BIND, People

from .contents import SERVICE
from .stopped import stops

sys.path.append(os.path.join(HERE, "..", "service", "admin"))
from fileroom_admin import signin
from fileroom_admin.places import Fault

CONF, FRONT = (f"etc/nginx/fileroom/signin/{it}" for it in ("directory.toml", "signin.conf"))
ASKS = ["systemctl daemon-reload", "systemctl enable --now fileroom-signin.socket",
        "systemctl try-restart fileroom-signin.service", "systemctl reload-or-restart nginx"]
ENDS = ["systemctl reload-or-restart nginx", "systemctl disable --now fileroom-signin.socket",
        "systemctl stop fileroom-signin.service"]
WANTS = "etc/systemd/system/sockets.target.wants/fileroom-signin.socket"


@pytest.fixture(scope="module")
def people(tmp_path_factory):
    it = People(str(tmp_path_factory.mktemp("people")), {"ann": "ann-word"})
    yield it
    it.stop()


@pytest.fixture
def words(people):
    return ["signin", "on", "ldap", "--bind", BIND, "--ca", people.ca, f"ldaps://127.0.0.1:{people.port}"]


@pytest.fixture
def on(machine, words):
    """A machine where a directory is asked."""
    status, _, faults = machine.does(*words)
    assert status == 0, faults
    machine.told()
    return machine


def test_on_and_off(machine, words, people, asks_nginx):
    before = machine.files()
    status, said, faults = machine.does(*words)
    assert (status, machine.told()) == (0, ASKS), faults
    assert {*machine.files()} - {*before} == {CONF, FRONT}
    assert oct(os.stat(machine.at(CONF)).st_mode & 0o777) == "0o600"
    assert "user passwd --none USER" in said
    assert machine.does(*words)[0] == 0
    assert machine.told() == [it for it in ASKS if "enable" not in it]
    assert (machine.does("signin", "off")[0], machine.told(), machine.files() == before) == (0, ENDS, True)
    assert machine.does("signin", "off")[2] == "fileroom-admin: no directory is asked\n"


def test_by_the_authorities_of_the_machine(machine, words, people):
    """Where no --ca names another."""
    at = words.index("--ca")
    machine.env["SSL_CERT_FILE"] = people.ca
    status, _, faults = machine.does(*words[:at], *words[at + 2:])
    assert (status, "ca = " in text_of(machine.at(CONF))) == (0, False), faults


def test_stopped_at_a_step(machine, words):
    stops(machine, *words, broken="fileroom-signin.socket")


def test_one_server_that_answers_is_enough(machine, words):
    """That another is away is told by `check`."""
    status, _, faults = machine.does(*words, "ldaps://127.0.0.1:9")
    assert status == 0, faults
    assert "server ldaps://127.0.0.1:9 does not answer" in machine.does("signin", "check")[1]


def test_a_directory_that_does_not_answer_changes_nothing(machine, words, people, tmp_path):
    before, (other, _) = machine.files(), certified(str(tmp_path / "other"), "IP:127.0.0.1")
    for at, its in (-1, "ldaps://127.0.0.1:9"), (-1, f"ldaps://localhost:{people.port}"), (-2, other):
        status, _, faults = machine.does(*words[:at], its, *words[len(words) + at + 1:])
        assert (status, machine.files() == before, machine.told()) == (1, True, []), faults


@pytest.mark.parametrize("more, why", [
    (["ldap", "host"], "signin on ldap wants --bind"), (["ad", "host"], "signin on ad wants --domain"),
    (["ad", "--domain", "a b", "host"], "signin on ad wants --domain"),
    (["ad", "--domain", "A\\B", "host"], "signin on ad wants --domain"),
    (["ad", "--domain", "a.example", "--bind", "{}", "host"], "signin on ad wants --domain"),
    (["ldap", "--bind", "uid=x", "host"], "has to have {} once"),
    (["ldap", "--bind", "{}{}", "host"], "has to have {} once"),
    (["ldap", "--bind", "{}", "http://host"], "is no server"),
    (["ldap", "--bind", "{}", "host", "a b"], "is no server"),
    (["ldap", "--bind", "{}", "host:0"], "is no server: HOST, ldaps://HOST or ldap://HOST, with :PORT from 1 to 65535"),
    (["ldap", "--bind", "{}", "host", "[::1]:65536"], ":PORT from 1 to 65535"),
    (["ldap", "--bind", "{}", "--ca", "/etc/hostname", "host"], "has no certificate as PEM")])
def test_what_is_refused(machine, more, why):
    before = machine.files()
    status, _, faults = machine.does("signin", "on", *more)
    assert (status, why in faults, faults.count("\n"), machine.files() == before) == (1, True, 1, True), faults


def test_a_key_beside_a_certificate_stays_where_it_is(machine, people, tmp_path):
    both = tmp_path / "both.pem"
    both.write_text(text_of(os.path.join(people.folder, "key.pem")) + text_of(people.ca))
    text = signin.conf_of("ad", ["dc1", "ldap://dc2:389"], "ad.school.example", None, str(both))
    assert ("PRIVATE" in text, text.splitlines()[:2]) == (
        False, ['servers = ["ldaps://dc1", "ldap://dc2:389"]', 'binds = ["{}@ad.school.example"]'])
    assert tomllib.loads(signin.conf_of("ad", ["dc1"], "SCHOOL", None, None))["binds"] == ["SCHOOL\\{}"]
    both.write_text("-----BEGIN CERTIFICATE-----\nAAAA\n-----END CERTIFICATE-----\n")
    with pytest.raises(Fault):
        signin.certificates_in(str(both))


def test_passwords_of_this_machine(on):
    """None is drawn where a directory is asked; one that is there stays until somebody takes it away."""
    users = lambda: {it.partition(":")[0] for it in text_of(on.at("etc/nginx/fileroom/users")).splitlines()}
    status, said, _ = on.does("user", "add", "plans", "eve", "eng")
    assert (status, "eve logs in by the directory\n" in said, "password of" in said) == (0, True, False)
    assert users() == {"ann", "bob"}
    assert on.does("user", "rename", "eve", "eva")[1].startswith(
        "eve is eva in plans; the directory lets eva in once it has that name\n")
    assert on.does("user", "rename", "eva", "eve")[0] == 0
    assert "plans  eve  eng  directory\n" in on.does("user", "list", "plans")[1]
    assert on.does("user", "passwd", "--none", "bob")[1] == "bob logs in by the directory alone\n"
    assert users() == {"ann"}
    assert on.does("user", "passwd", "--none", "bob")[2].endswith("bob has no password of this machine\n")
    assert "the password of eve: " in on.does("user", "passwd", "eve")[1]
    assert users() == {"ann", "eve"}
    on.does("signin", "off")
    status, _, faults = on.does("user", "passwd", "--none", "eve")
    assert (status, "could not log in at all" in faults, users()) == (1, True, {"ann", "eve"})
    assert "the password of kim: " in on.does("user", "add", "plans", "kim")[1]


def test_an_update_brings_the_fronts_file(on):
    on.write(FRONT, "# of before\n")
    assert on.does("front")[0] == 0
    assert text_of(on.at(FRONT)) == text_of(os.path.join(SERVICE, "../front/signin.conf"))
    asked = on.told()
    assert [it for it in asked if "signin" in it] == ASKS[1:3]


def test_how_it_is(on, people, words):
    """Each server answers, its certificate lasts, and what is wrong is named with what helps."""
    status, said, _ = on.does("signin", "check")
    told = f"the certificate of the directory's server ldaps://127.0.0.1:{people.port} ends in 1 days"
    assert (status, told in said) == (1, True)
    on.write(CONF, text_of(on.at(CONF)).replace(f":{people.port}", ":9"))
    status, said, _ = on.does("signin", "check")
    assert (status, "server ldaps://127.0.0.1:9 does not answer as it must" in said) == (1, True)
    assert "server ldaps://127.0.0.1:9 does not answer as it must" in on.does("check")[1]
    on.write(FRONT, "# another\n")
    assert "signin/signin.conf is not from the installed version" in on.does("check")[1]
    on.does("signin", "off")
    assert on.does("signin", "check")[2] == "fileroom-admin: no directory is asked: fileroom-admin signin on\n"
    assert "directory" not in on.does("check")[1]


def test_a_certificate_that_lasts(on, monkeypatch):
    its = ["ldaps://a\t20", "ldaps://b\t21", "ldaps://c\tno route to host"]
    monkeypatch.setattr(signin, "said_before", lambda *_: (0, "\n".join(its)))
    assert [text.partition("server ")[2] for text, _ in signin.faults(on_places(on))] == [
        "ldaps://a ends in 20 days", "ldaps://c does not answer as it must: no route to host"]
    monkeypatch.setattr(signin, "said_before", lambda *_: (1, "Traceback"))
    with pytest.raises(Fault):
        [*signin.faults(on_places(on))]


def on_places(machine):
    from fileroom_admin.places import Places
    return Places(machine.root)


def test_names_that_differ_by_capitals_alone(both_backed_up, words, tmp_path):
    """A directory takes them for one: so where one is asked, no such name comes, by no command, and none is there
    before; and where they came by hand, that is told."""
    machine = both_backed_up
    assert machine.does("user", "add", "plans", "ANN")[0] == 0
    status, _, faults = machine.does(*words)
    assert (status, faults) == (1, "fileroom-admin: ANN and ann are one account for a directory: fileroom-admin user "
                                   "rename\n")
    assert [machine.does(*its)[0] for its in (("user", "rename", "ANN", "carl"), words)] == [0, 0]
    table = tmp_path / "table.csv"
    for its in ("user,groups\nBob,eng\n", ["user", "import", "plans", table], 1), (
            "user,groups\nann,eng\nbob,eng\nBOB,eng\ncarl,\n",
            ["user", "import", "--sync", "--dry-run", "plans", table], 1), (
            "user,groups\nann,eng\nBob,eng\ncarl,\n", ["user", "import", "--sync", "plans", table], 0), (
            "", ["user", "add", "plans", "Ann"], 1), ("", ["user", "add", "plans", "eve"], 0), (
            "", ["user", "rename", "carl", "EVE"], 1), ("", ["user", "rename", "eve", "Eve"], 0), (
            "", ["room", "add", "school", "CARL", "eng"], 1):
        table.write_text(its[0])
        status, _, faults = machine.does(*map(str, its[1]))
        assert (status, "one account for the directory" in faults) == (its[2], its[2] == 1), (its, faults)
    machine.write("etc/fileroom/plans.toml", text_of(machine.at("etc/fileroom/plans.toml")) + "EVE = []\n")
    told = "EVE and Eve are one account for the directory, so neither is let in by it"
    assert [told in machine.does(*its)[1] for its in (["check"], ["signin", "check"])] == [True, True]
    assert machine.does("user", "add", "plans", "max")[0] == 0
    assert machine.does("user", "remove", "plans", "EVE")[0] == 0


@pytest.mark.parametrize("word", ["remove", "purge"])
def test_the_package_goes(machine, word):
    """Removed, it has the service enabled still; by a purge it is not."""
    os.makedirs(os.path.dirname(machine.at(WANTS)))
    os.symlink("/lib/systemd/system/fileroom-signin.socket", machine.at(WANTS))
    how = {"env": machine.env | {"DPKG_ROOT": machine.root}, "capture_output": True}
    subprocess.run(["sh", os.path.join(SERVICE, "deb/postrm"), word], check=True, **how)
    assert os.path.lexists(machine.at(WANTS)) == (word == "remove")
