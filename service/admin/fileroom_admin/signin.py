"""Logins of a directory (LDAP, Active Directory): what the front and the sign-in service need for that, and how both
are looked at. Passwords of this machine go on counting beside it."""
import json
import os
import re

from . import rosters
from .changes import Change
from .places import HERE, Fault, asked, read, said, said_before, sample

CONF = "signin/directory.toml"  # beside the front's files: what the service is told; no secret is in it
FRONT = "signin/signin.conf"
SOCKET, SERVICE = "fileroom-signin.socket", "fileroom-signin.service"
PROGRAMS = "../../signin/fileroom-signin", "../../../signin/fileroom-signin"  # as it was installed, or in a checkout
NEEDS = ("waitress",)
PACKAGES = "apt-get install " + " ".join(f"python3-{it}" for it in NEEDS)
SERVER = re.compile(r"(?:ldaps?://)?(?:[A-Za-z0-9.-]+|\[[0-9A-Fa-f:]+\])(?::([0-9]{1,5}))?")
# Of Active Directory: its short name, by which a name is an account's sAMAccountName and nothing else; or its long one.
SHORT, LONG = re.compile(r"[A-Za-z0-9][A-Za-z0-9_-]{0,14}"), re.compile(r"[A-Za-z0-9-]+(\.[A-Za-z0-9-]+)+")
DAYS_LEFT = 21  # of a server's certificate


def is_on(places):
    return os.path.exists(places.front(CONF))


def program():
    return next(it for it in (os.path.normpath(os.path.join(HERE, it)) for it in PROGRAMS) if os.path.exists(it))


def lacks_parts():
    return said("/usr/bin/python3", "-c", f"import {', '.join(NEEDS)}")[0] != 0


def conf_of(kind, servers, domain, binds, ca):
    """The text of CONF. (JSON's texts are TOML's.)"""
    for it in servers:
        named = SERVER.fullmatch(it)
        if not named or named[1] and not 0 < int(named[1]) < 1 << 16:
            raise Fault(f"{it!r} is no server: HOST, ldaps://HOST or ldap://HOST, with :PORT from 1 to 65535")
    if kind == "ad":
        if binds or not any(it.fullmatch(domain or "") for it in (SHORT, LONG)):
            raise Fault("signin on ad wants --domain, as SCHOOL or ad.school.example, and no --bind")
        binds = [f"{{}}@{domain}" if "." in domain else f"{domain}\\{{}}"]
    elif domain or not binds:
        raise Fault("signin on ldap wants --bind, as 'uid={},ou=people,dc=school,dc=example', and no --domain")
    for it in binds:
        if it.count("{}") != 1 or not it.isprintable():
            raise Fault(f"--bind {it!r} has to have {{}} once, in the place of the name")
    whole = [it if "://" in it else f"ldaps://{it}" for it in servers]
    lines = [f"servers = {json.dumps(whole)}", f"binds = {json.dumps(binds, ensure_ascii=False)}"]
    lines += [f"ca = {json.dumps(certificates_in(it))}" for it in [ca] if it]
    return "\n".join(lines) + "\n"


def certificates_in(path):
    """Of authorities. (What else stands in such a file, a key, stays there.)"""
    found = re.findall(r"-----BEGIN CERTIFICATE-----\n[A-Za-z0-9+/=\n]+-----END CERTIFICATE-----\n?", read(path))
    if not found:
        raise Fault(f"{path} has no certificate as PEM")
    for it in found:
        asked("openssl", "x509", "-noout", stdin=it)
    return "".join(it.rstrip("\n") + "\n" for it in found)


def looks(places):
    """Of each server what is wrong with it, or nothing, and how many days its certificate lasts."""
    status, told = said_before("signin", program(), "--look", places.front(CONF))
    found = [it.partition("\t") for it in told.splitlines() if "\t" in it]
    if not found:
        raise Fault(f"the directory cannot be looked at: {told[:200] or status}")
    return [(name, "" if its.lstrip("-").isdigit() else its, int(its) if its.lstrip("-").isdigit() else None)
            for name, _, its in found]


def twins(places):
    """Users of rosters whom a directory takes for one."""
    paths = map(places.roster, places.rooms())
    return sorted(rosters.twins_of(user for it in paths for user in rosters.users_of(read(it), it)))


def faults(places):
    """What is wrong with the directory, and with the rosters for it, each with its remedy."""
    for its in twins(places):
        yield f"{' and '.join(its)} are one account for the directory, so neither is let in by it", \
            f"fileroom-admin user rename {its[0]} ANOTHER"
    for name, fault, days in looks(places):
        if fault:
            yield f"the directory's server {name} does not answer as it must: {fault[:200]}", "look at that machine; " \
                "fileroom-admin signin on, with another --ca or server"
        elif days < DAYS_LEFT:
            yield f"the certificate of the directory's server {name} ends in {days} days", "a new one there"


def check(call):
    """Says how the servers are. The exit status."""
    if not is_on(call.places):
        raise Fault("no directory is asked: fileroom-admin signin on")
    found = [*faults(call.places)]
    for text, remedy in found:
        call.say(f"{text}\n    {remedy}")
    if not found:
        for name, _, days in looks(call.places):
            call.say(f"{name} answers; its certificate lasts {days} days")
    return 1 if found else 0


def turn_on(call, kind, servers, domain, bind, ca):
    """(It is asked before nginx is told to: a directory that does not answer changes nothing.)"""
    text = conf_of(kind, servers, domain, bind, ca)
    if lacks_parts():
        raise Fault(f"the sign-in service needs a package: {PACKAGES}")
    places = call.places
    if not places.rooms():
        raise Fault("there is no front yet, which comes with a room: fileroom-admin room add NAME OWNER GROUP")
    if alike := twins(places):
        raise Fault(f"{' and '.join(alike[0])} are one account for a directory: fileroom-admin user rename")
    was_on, change = is_on(places), Change(places)
    change.put(places.front(CONF), text, 0o600)
    change.put(places.front(FRONT), sample("signin.conf"))
    change.look(program(), "--look", places.front(CONF))
    change.look("nginx", "-tq")
    change.then("systemctl", "daemon-reload")
    if not was_on:
        change.then("systemctl", "enable", "--now", SOCKET, undo=("systemctl", "disable", "--now", SOCKET))
    change.then("systemctl", "try-restart", SERVICE)
    change.then(*places.read_front())
    change.happen()
    call.say(f"logins are right by the directory too: {', '.join(servers)}")
    call.say("a password of this machine counts beside it, and stays when the directory's ends; to take one away: "
             "fileroom-admin user passwd --none USER")


def turn_off(call):
    if not is_on(call.places):
        raise Fault("no directory is asked")
    change = Change(call.places)
    for it in CONF, FRONT:
        change.remove(call.places.front(it))
    change.look("nginx", "-tq")
    change.then(*call.places.read_front())
    change.then("systemctl", "disable", "--now", SOCKET, undo=("systemctl", "enable", "--now", SOCKET))
    change.then("systemctl", "stop", SERVICE, undo=("true",))
    change.happen()
    call.say("no directory is asked; who has no password of this machine needs one: fileroom-admin user passwd")


def put(change):
    """The front's file, as an update brings it."""
    if is_on(change.places):
        change.put(change.places.front(FRONT), sample("signin.conf"))
        change.then("systemctl", "enable", "--now", SOCKET)  # (a purge of the package took its link)
        change.then("systemctl", "try-restart", SERVICE)
