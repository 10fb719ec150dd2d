"""The front by HTTPS, by the lines of RUNNING as they stand: with certbot, and with an authority of one's own.

Debian's pebble stands for the authority that certbot asks, with all that makes it answer at random switched off. It
asks at port 80 for what certbot puts there, as others do. What certbot would ask somebody at a terminal stands in its
settings.
"""
import json
import os
import socket
import ssl
import subprocess

from nginx import certified
from served import text_of
from typed import as_told

NAME, OWN_NAMES = "room.example", ("room.lan", "192.168.1.5")
FOLDER, OWN_FOLDER = "/root/authority", "/root/own-authority"
TRUSTED = "/usr/local/share/ca-certificates"
DEFAULT_SITE = "/etc/nginx/sites-enabled/default"
REDIRECT = "/etc/nginx/conf.d/fileroom-redirect.conf"
RENEWAL = f"/etc/letsencrypt/renewal/{NAME}.conf"
CHANGED = "/etc/nginx/fileroom/listen.conf", "/etc/hosts", "/etc/letsencrypt/cli.ini"
PEBBLE = {"pebble": {"listenAddress": "127.0.0.1:14000", "managementListenAddress": "127.0.0.1:15000",
                     "certificate": f"{FOLDER}/cert.pem", "privateKey": f"{FOLDER}/key.pem", "httpPort": 80,
                     "tlsPort": 5001, "ocspResponderURL": "", "externalAccountBindingRequired": False}}
AT_RANDOM = "PEBBLE_VA_NOSLEEP=1", "PEBBLE_WFE_NONCEREJECT=0", "PEBBLE_AUTHZREUSE=0"
SETTINGS = """server = https://127.0.0.1:14000/dir
non-interactive = true
agree-tos = true
register-unsafely-without-email = true
"""
LATE = "3650 days"  # before its end a certificate of pebble's is renewed: now


def write(path, text, how="w"):
    with open(path, how, encoding="utf-8") as file:
        file.write(text)


class Scene:
    """The machine's front in the clear, as it is put back; and the ways of `inside` to ask the machine."""

    def __init__(self, said, must, until, tally):
        self.said, self.must, self.until, self.tally = said, must, until, tally
        self.before = {path: text_of(path) if os.path.exists(path) else "" for path in CHANGED}

    def __enter__(self):
        return self

    def __exit__(self, *_):
        for path, text in self.before.items():
            write(path, text)
        os.remove(REDIRECT)
        if not os.path.lexists(DEFAULT_SITE):
            os.symlink("/etc/nginx/sites-available/default", DEFAULT_SITE)
        self.must("systemctl", "restart", "nginx", "fileroom-ports")

    def does(self, shell, lines, due=as_told):
        for line, told in lines:
            status, printed = shell.does(line)
            self.tally.differs(line, (status, printed), (0, due(printed, told)))

    def trusts(self, cert, name):
        """This machine takes for good what the authority vouches for."""
        self.must("install", "-m", "644", cert, f"{TRUSTED}/{name}.crt")
        self.must("update-ca-certificates")


def begin_pebble(scene):
    """As a public authority: its address is trusted for good, and certbot asks it."""
    certified(FOLDER, "DNS:localhost", "IP:127.0.0.1")
    scene.trusts(f"{FOLDER}/cert.pem", "pebble")
    write(f"{FOLDER}/pebble.json", json.dumps(PEBBLE))
    write("/etc/hosts", f"127.0.0.1 {NAME}\n", "a")
    write("/etc/letsencrypt/cli.ini", SETTINGS, "a")
    scene.must("systemd-run", "--unit=pebble", *(f"--setenv={it}" for it in AT_RANDOM), "pebble", "-config",
               f"{FOLDER}/pebble.json")
    scene.until(lambda: root_of_pebble() is not None, "pebble answers")


def root_of_pebble():
    """The certificate by which one trusts what it gives."""
    done = subprocess.run(["curl", "-s", "--fail", "https://127.0.0.1:15000/roots/0"], capture_output=True, text=True)
    return done.stdout if done.returncode == 0 else None


def served():
    """The number of the front's certificate, as somebody finds who trusts pebble; or the fault."""
    context = ssl.create_default_context(cadata=root_of_pebble())
    try:
        with socket.create_connection((NAME, 443), 5) as line, \
                context.wrap_socket(line, server_hostname=NAME) as by_tls:
            return by_tls.getpeercert()["serialNumber"]
    except OSError as fault:
        return str(fault)


def on_disk():
    """The number of the certificate that certbot has."""
    done = subprocess.run(["openssl", "x509", "-noout", "-serial", "-in", f"/etc/letsencrypt/live/{NAME}/cert.pem"],
                          capture_output=True, text=True)
    return done.stdout.strip().partition("=")[2]


def renewed(scene):
    """By the unit of certbot's own timer, where a certificate is due."""
    before = on_disk()
    write(RENEWAL, f"renew_before_expiry = {LATE}\n{text_of(RENEWAL)}")
    scene.must("systemctl", "start", "certbot.service")
    scene.tally.differs("certbot has another one", on_disk() != before, True)
    scene.until(lambda: served() == on_disk(), "the front shows the renewed certificate")


def by_certbot(scene, shell, lines):
    """The site that Debian has at port 80 is there first, and is put away by the line of `check`."""
    begin_pebble(scene)
    scene.does(shell, lines, lambda printed, _: printed)  # (certbot tells much, and RUNNING none of it)
    scene.until(lambda: served() == on_disk(), "the front shows the certificate")
    found = scene.said("fileroom-admin", "check")[1].splitlines()
    remedy = next((it.strip() for at, it in enumerate(found) if at and "default site" in found[at - 1]), "")
    scene.tally.differs(f"the line that puts Debian's site away: {remedy}", shell.does(remedy)[0], 0)
    scene.tally.differs("it is away", os.path.lexists(DEFAULT_SITE), False)
    renewed(scene)
    os.remove(RENEWAL)
    scene.must("systemctl", "stop", "pebble")


def of_ones_own(scene, shell, lines):
    """A desk that trusts it, by Debian's lines, finds the room by name and by address; one that does not, does not. It
    is told when the certificate ends, and then the last three lines are done again."""
    os.mkdir(OWN_FOLDER)
    shell.does(f"cd {OWN_FOLDER}")
    scene.does(shell, lines)
    for line, _ in lines[-2:]:
        scene.tally.differs("one of few days", shell.does(line.replace("-days 397", "-days 5"))[0], 0)
    ends = lambda: "the certificate expires" in scene.said("fileroom-admin", "check")[1]
    scene.tally.differs("it is told", ends(), True)
    scene.does(shell, lines[-3:])
    scene.tally.differs("and no more", ends(), False)

    def asks(name):
        words = ["curl", "-s", "-m", "20", "--connect-to", "::127.0.0.1:", "-o", "/dev/null", "-w", "%{http_code}"]
        return scene.said(*words, f"https://{name}/health")[1]

    for name in OWN_NAMES:
        scene.tally.differs(f"{name}, not trusted", asks(name), "000")
    scene.trusts(f"{OWN_FOLDER}/ca.pem", "room")
    for name in OWN_NAMES:
        scene.until(lambda: asks(name) == "200", f"{name} is trusted")  # (the old workers end in their own time)
    scene.tally.differs("a name that it does not vouch for", asks("elsewhere.lan"), "000")
