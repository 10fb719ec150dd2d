"""A directory of people: Debian's slapd on a loopback port, by TLS with a certificate of its own, and the sign-in
service before it."""
import contextlib
import os
import signal
import socket
import subprocess

from nginx import certified
from served import HERE, end_with_parent, free_port, put_file, started_here, until, wait_for_port

SERVICE = os.path.join(HERE, "..", "signin", "fileroom-signin")
PYTHON = "/usr/bin/python3"  # (Debian's, which has Debian's packages)
BASE = "dc=school,dc=example"
BIND = f"uid={{}},ou=people,{BASE}"
GROUPS = f"ou=groups,{BASE}"
WORD = "admin-word"  # of cn=admin
CONF = """include /etc/ldap/schema/core.schema
include /etc/ldap/schema/cosine.schema
include /etc/ldap/schema/inetorgperson.schema
include /etc/ldap/schema/nis.schema
modulepath /usr/lib/ldap
moduleload back_mdb
pidfile {0}/pid
allow bind_anon_cred bind_anon_dn
{1}
database mdb
suffix "{2}"
rootdn "cn=admin,{2}"
rootpw {3}
directory {0}/data
limits * size=550 size.prtotal=unlimited
"""
TLS = "TLSCertificateFile {}\nTLSCertificateKeyFile {}"
TOP = f"""dn: {BASE}
objectClass: dcObject
objectClass: organization
o: school

dn: ou=people,{BASE}
objectClass: organizationalUnit

"""
PERSON = """dn: uid={0},ou=people,{2}
objectClass: inetOrgPerson
cn: {0}
sn: {0}
userPassword: {1}

"""


class Slapd:
    """With what some lines of LDIF have, at these addresses; `more` stands in its settings."""

    def __init__(self, folder, laid, addresses, more):
        self.folder, self.addresses = folder, addresses
        os.makedirs(os.path.join(folder, "data"))
        self.conf, laid_by = (os.path.join(folder, it) for it in ("slapd.conf", "ldif"))
        for path, text in (self.conf, CONF.format(folder, more, BASE, WORD)), (laid_by, laid):
            put_file(path, text)
        words = ["/usr/sbin/slapadd", "-q", "-f", self.conf, "-l", laid_by]
        subprocess.run(words, check=True, capture_output=True)
        self.start()

    def start(self):
        words = ["/usr/sbin/slapd", "-d", "0", "-f", self.conf, "-h", " ".join(self.addresses)]
        self.server = subprocess.Popen(words, preexec_fn=end_with_parent, stderr=subprocess.DEVNULL)
        started_here.append(self.server)
        for it in self.addresses:
            if not wait_for_port(int(it.rpartition(":")[2]), self.server):
                raise RuntimeError(f"slapd ended with status {self.server.returncode}")

    def stop(self):
        self.server.kill()
        self.server.wait()


class People(Slapd):
    """`words` is each user's password. `names` are those of its certificate, which lasts so many days; `more` is what
    it has besides, as LDIF."""

    def __init__(self, folder, words, names=("IP:127.0.0.1",), port=None, more="", days=2):
        self.port, self.clear = port or free_port(), free_port()
        self.ca, key = certified(folder, *names, days=days)
        laid = "".join(PERSON.format(user, word, BASE) for user, word in words.items())
        at = [f"ldaps://127.0.0.1:{self.port}", f"ldap://127.0.0.1:{self.clear}"]
        super().__init__(folder, TOP + laid + more, at, TLS.format(self.ca, key))

    def changes(self, user, word=None):
        """Another password, or with none the user goes."""
        with self.as_admin() as line:
            if word is None:
                assert line.delete(BIND.format(user))
            else:
                assert line.modify(BIND.format(user), {"userPassword": [("MODIFY_REPLACE", [word])]})

    def leaves(self, user, group):
        with self.as_admin() as line:
            assert line.modify(f"cn={group},{GROUPS}", {"member": [("MODIFY_DELETE", [BIND.format(user)])]})

    def comes(self, user, group):
        with self.as_admin() as line:
            assert line.modify(f"cn={group},{GROUPS}", {"member": [("MODIFY_ADD", [BIND.format(user)])]})

    def as_admin(self):
        import ldap3
        server = ldap3.Server(f"ldap://127.0.0.1:{self.clear}", get_info=ldap3.NONE)
        return ldap3.Connection(server, f"cn=admin,{BASE}", WORD, auto_bind=True)

    def hold(self, is_held=True):
        """It answers no more, and takes connections still."""
        os.kill(self.server.pid, signal.SIGSTOP if is_held else signal.SIGCONT)


class SignIn:
    """The service, asked at `at`, with this conf (TOML) and the front's folder of rooms."""

    def __init__(self, folder, conf, rooms):
        os.makedirs(folder, exist_ok=True)
        self.conf, self.at, self.log = (os.path.join(folder, it) for it in ("directory.toml", "check.sock", "log"))
        with open(self.conf, "w", encoding="utf-8") as file:
            file.write(conf)
        with open(self.log, "wb") as log:
            words = [PYTHON, "-I", "-B", SERVICE, self.conf, rooms, self.at]
            self.server = subprocess.Popen(words, preexec_fn=end_with_parent, stderr=log)
        started_here.append(self.server)
        if not until(lambda: self.server.poll() is not None or self.listens()) or self.server.poll() is not None:
            raise RuntimeError("fileroom-signin does not listen")

    def listens(self):
        with contextlib.suppress(OSError), socket.socket(socket.AF_UNIX) as it:
            it.connect(self.at)
            return True
        return False

    def stop(self):
        self.server.kill()
        self.server.wait()


def conf_of(servers, ca, **more):
    """As `fileroom-admin signin on` writes it."""
    lines = [f"servers = {list(servers)!r}", f"binds = {[BIND]!r}", f"ca = '''{open(ca, encoding='utf-8').read()}'''"]
    return "\n".join([*lines, *(f"{name.replace('_', '-')} = {it}" for name, it in more.items())]) + "\n"
