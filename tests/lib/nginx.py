"""The front of front/ before rooms: an nginx of one's own on a loopback port, with a password for each user."""
import base64
import functools
import hashlib
import os
import shutil
import subprocess

from served import HERE, WithWorkers, end_with_parent, free_port, message, one_answer, started_here, wait_for_port

FOLDER = os.path.join(HERE, "..", "front")
PATH = os.pathsep.join([os.environ.get("PATH", ""), "/usr/sbin"])  # (where Debian has nginx)


def lacking():
    """The programs that this machine lacks for a front."""
    return [it for it in ("nginx", "openssl") if not shutil.which(it, path=PATH)]


def hashed(password):
    """A password as nginx compares it in the least time."""
    salt = os.urandom(8)
    return "{SSHA}" + base64.b64encode(hashlib.sha1(password.encode() + salt).digest() + salt).decode()


def login(user, password):
    """The field by which a caller logs in."""
    return "authorization: Basic " + base64.b64encode(f"{user}:{password}".encode()).decode()


def certified(folder, *names, days=2):
    """Makes a certificate of its own, with its key, for these names: `DNS:a.b`, `IP:127.0.0.1`."""
    os.makedirs(folder, exist_ok=True)
    cert, key = (os.path.join(folder, it) for it in ("cert.pem", "key.pem"))
    words = ["openssl", "req", "-x509", "-newkey", "rsa:2048", "-nodes", "-days", str(days), "-subj", "/CN=a front",
             "-addext", f"subjectAltName={','.join(names)}", "-keyout", key, "-out", cert]
    subprocess.run(words, check=True, capture_output=True)
    return cert, key


class Front:
    """`users` is each user's password, `rooms` each room's port, `page` the folder that stands at /.

    `rate` is how often a login may ask, `opens` how often it may open a session, as nginx writes it; by itself those of
    the front's files. `http` is a port for who comes without TLS, where the folder has a certificate (`certified`).
    """

    def __init__(self, folder, users, rooms, page, port=None, **how):
        self.folder, self.users, self.page, self.port = folder, users, page, port or free_port()
        os.makedirs(folder, exist_ok=True)
        with open(os.path.join(folder, "users"), "w") as file:
            file.writelines(f"{user}:{hashed(it)}\n" for user, it in users.items())
        words = [os.path.join(FOLDER, "start"), folder, str(self.port), page, *(f"{it}={rooms[it]}" for it in rooms)]
        env = {**os.environ, "PATH": PATH, **{name.upper(): str(it) for name, it in how.items()}}
        kind = WithWorkers if "workers" in how else functools.partial(subprocess.Popen, preexec_fn=end_with_parent)
        self.server = kind(words, env=env)
        started_here.append(self.server)
        if not wait_for_port(self.port, self.server):
            raise RuntimeError(f"nginx ended with status {self.server.returncode}")

    def fields(self, user, more=()):
        return ["host: 127.0.0.1", *more] + ([login(user, self.users[user])] if user else [])

    def settle(self):
        """Until nginx has written the lines of what it answered: as one process it does so before it answers more."""
        self.once(None, "GET", "/health")

    def once(self, user, method, target, body=b"", more=(), source="127.0.0.1"):
        """The answer to one message over a connection of its own, or None where there was none."""
        return one_answer(self.port, message(None, method, target, body, fields=self.fields(user, more)), source)

    def status(self, *words, **how):
        """That of the answer, or None where there was none."""
        got = self.once(*words, **how)
        return got and got.status
