"""The front and its wall as the package is removed, purged and installed again: both are there, or both are gone."""
import glob
import os
import socket

from nginx import certified

KEPT = ("/var/lib/fileroom", "/var/backups/fileroom", "/var/backups/fileroom-front", "/etc/fileroom",
        "/etc/nginx/fileroom", "/var/log/fileroom", "/etc/logrotate.d/fileroom")  # by a purge
LINKS = "/etc/nginx/conf.d/fileroom*", "/etc/nginx/modules-enabled/*fileroom*"
LISTEN, REDIRECT = "/etc/nginx/fileroom/listen.conf", "/etc/nginx/conf.d/fileroom-redirect.conf"
DEFAULT = "/etc/nginx/sites-enabled/default"
SITE = "server { listen 80 default_server; return 418; }\n"  # another one, of the machine's own


def answers(port):
    with socket.socket() as line:
        return line.connect_ex(("127.0.0.1", port)) == 0


class Scene:
    """`it` is the module of the scenes."""

    def __init__(self, it):
        self.it, self.tally = it, it.tally

    def wall(self):
        return self.it.said("nft", "list", "table", "inet", "fileroom")[0] == 0

    def status(self, address):
        words = ["curl", "-sk", "-m", "20", "-o", "/dev/null", "-w", "%{http_code}", "--connect-to", "::127.0.0.1:"]
        return self.it.said(*words, address)[1]

    def is_there(self, when):
        self.it.until(lambda: self.status("https://room.lan/") == "401", f"the front, {when}")
        found = [self.status("http://room.lan/"), self.wall()]
        self.tally.differs(f"its redirect and its wall, {when}", found, ["301", True])

    def is_gone(self, when):
        """And nginx serves what else it has."""
        self.it.until(lambda: not answers(443), f"the front is gone, {when}")
        self.tally.differs(f"its wall, {when}", self.wall(), False)
        self.tally.differs(f"another site, {when}", self.status("http://room.lan/"), "418")
        links = [path for it in LINKS for path in glob.glob(it)]
        self.tally.differs(f"what nginx reads of it, {when}", (links, self.it.said("nginx", "-tq")), ([], (0, "")))
        restarted = self.it.said("systemctl", "restart", "nginx")
        self.tally.differs(f"nginx starts, {when}", (restarted, answers(443)), ((0, ""), False))

    def play(self, install):
        """By https, beside another site; at last it is in the clear again."""
        certified("/root/removal", "DNS:room.lan")
        self.it.must("fileroom-admin", "tls", "/root/removal/cert.pem", "/root/removal/key.pem")
        os.remove(DEFAULT)
        self.it.write("/etc/nginx/conf.d/other.conf", SITE)
        self.it.must("systemctl", "reload", "nginx")
        self.is_there("before")
        self.cannot_be_read(install)
        self.it.must("apt-get", "remove", "-y", "fileroom")
        self.is_gone("removed")
        states = "--state=active,activating,deactivating"
        left = self.it.said("systemctl", "list-units", "--plain", "--no-legend", states, "fileroom*")
        self.tally.differs("its units end with it", left, (0, ""))
        self.it.must("apt-get", "install", "-y", install)
        self.is_there("installed again")
        told = self.it.must("apt-get", "purge", "-y", "fileroom")
        self.is_gone("purged")
        self.tally.differs("a purge names what stays", [it for it in KEPT if f"{it} is kept" not in told], [])
        self.tally.differs("and keeps it", [it for it in KEPT if os.path.isdir(it) and not os.listdir(it)], [])
        self.tally.differs("what else is left", [it for it in glob.glob("/var/lib/fileroom*") if it not in KEPT], [])

    def cannot_be_read(self, install):
        """While nginx refuses another site's file it goes on with the front, and so does the wall."""
        broken = "/etc/nginx/conf.d/broken.conf"
        self.it.write(broken, "no such word;\n")
        told = self.it.must("apt-get", "remove", "-y", "fileroom")
        self.tally.differs("it is told", "the wall stays" in told, True)
        self.tally.differs("the front and its wall", [self.status("https://room.lan/"), self.wall()], ["401", True])
        os.remove(broken)
        self.it.must("apt-get", "install", "-y", install)
        self.is_there("after a broken file")

    def in_the_clear(self):
        """As it was before."""
        os.remove("/etc/nginx/conf.d/other.conf")
        os.remove(REDIRECT)
        with open("/usr/share/fileroom/front/listen.conf", encoding="utf-8") as sample:
            self.it.write(LISTEN, sample.read())
        os.symlink("/etc/nginx/sites-available/default", DEFAULT)
        self.it.must("systemctl", "restart", "nginx", "fileroom-ports")
