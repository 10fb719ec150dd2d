"""Directories for `fileroom-roster`: Debian's slapd, below a folder of its own; and one that gives the members of a
large group in parts, as Active Directory does."""
import socketserver
import threading

from ldap3.protocol import rfc4511
from pyasn1.codec.ber import decoder, encoder
from served import free_port
from slapd import BASE, GROUPS, TOP, Slapd

PEOPLE = f"ou=people,{BASE}"
TREE = f"""{TOP}dn: {GROUPS}
objectClass: organizationalUnit
"""


def person(user, name=None):
    shown = f"displayName: {name}\n" if name else ""
    return f"dn: uid={user},{PEOPLE}\nobjectClass: inetOrgPerson\ncn: {user}\nsn: x\n{shown}"


def group(name, *members, kind="groupOfNames", is_in="member", base=GROUPS):
    more = "gidNumber: 7\n" if kind == "posixGroup" else ""
    return f"dn: cn={name},{base}\nobjectClass: {kind}\n{more}" + "".join(f"{is_in}: {it}\n" for it in members)


def of(user):
    return f"uid={user},{PEOPLE}"


def of_group(name):
    return f"cn={name},{GROUPS}"


class Directory(Slapd):
    """With these entries, at a free port of this machine."""

    def __init__(self, folder, *entries, more="", scheme="ldap", host="127.0.0.1"):
        self.url = f"{scheme}://{host}:{free_port()}"
        super().__init__(folder, "\n".join([TREE, *entries]), [self.url], more)


class Parts(socketserver.BaseRequestHandler):
    """A person for each of `users`, and the group `all` of them, whose members it gives `at_once` at a time; or the
    first of these alone, and then no more than the code `ends_with`."""

    def handle(self):
        data = b""
        while more := self.request.recv(65536):
            data += more
            while len(data) > 1 and len(data) >= size_of(data):
                message, data = decoder.decode(data, asn1Spec=rfc4511.LDAPMessage())
                self.answer(message)

    def answer(self, message):
        asked, its = message["protocolOp"].getName(), message["protocolOp"].getComponent()
        if asked == "bindRequest":
            self.done(message, "bindResponse", rfc4511.BindResponse())
        elif asked == "searchRequest":
            base, wanted = str(its["baseObject"]), [str(it) for it in its["attributes"]]
            found = [*self.server.found(base, wanted)]
            for dn, attributes in found:
                self.send(message, "searchResEntry", entry_of(dn, attributes))
            self.done(message, "searchResDone", rfc4511.SearchResultDone(), 0 if found else self.server.ends_with)

    def done(self, message, name, reply, code=0):
        reply["resultCode"], reply["matchedDN"], reply["diagnosticMessage"] = code, "", ""
        self.send(message, name, reply)

    def send(self, message, name, reply):
        out, op = rfc4511.LDAPMessage(), rfc4511.ProtocolOp()
        op[name] = reply
        out["messageID"], out["protocolOp"] = message["messageID"], op
        self.request.sendall(encoder.encode(out))


def size_of(data):
    """Of the message at the beginning, by its head."""
    if data[1] < 128:
        return 2 + data[1]
    count = data[1] - 128
    return 2 + count + int.from_bytes(data[2:2 + count], "big")


def entry_of(dn, attributes):
    entry, its = rfc4511.SearchResultEntry(), rfc4511.PartialAttributeList()
    for at, (name, values) in enumerate(attributes.items()):
        one, all_values = rfc4511.PartialAttribute(), rfc4511.Vals()
        for place, value in enumerate(values):
            all_values[place] = value
        one["type"], one["vals"] = name, all_values
        its[at] = one
    entry["object"], entry["attributes"] = dn, its
    return entry


class InParts(socketserver.ThreadingTCPServer):
    daemon_threads = True

    def __init__(self, users, at_once, ends_with=None):
        super().__init__(("127.0.0.1", 0), Parts)
        self.users, self.at_once, self.asked, self.ends_with = users, at_once, [], ends_with
        self.url = f"ldap://127.0.0.1:{self.server_address[1]}"
        threading.Thread(target=self.serve_forever, daemon=True).start()

    def found(self, base, wanted):
        if base == PEOPLE:
            yield from ((of(it), {"uid": [it], "cn": [it]}) for it in self.users)
            return
        part = next((it for it in wanted if it.startswith("member;range=")), "member;range=0-*")
        self.asked.append(part)
        if self.ends_with is not None and len(self.asked) > 1:
            return
        first = int(part.partition("=")[2].partition("-")[0])
        some = self.users[first:first + self.at_once]
        end = "*" if first + self.at_once >= len(self.users) else first + self.at_once - 1
        yield of_group("all"), {"cn": ["all"], "member": [], f"member;range={first}-{end}": [of(it) for it in some]}

    def end(self):
        self.shutdown()
        self.server_close()
