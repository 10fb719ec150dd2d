"""fail2ban by the lines of RUNNING: an address that guesses is shut out, who asks too much in a day is held."""
import contextlib
import threading

import authority
import typed
from nginx import certified

GUEST, HERE, GUESSES, OTHER = "guest", "10.9.9.1", "10.9.9.2", "10.9.9.3"  # another machine's network; addresses
MOST = 20  # objects in a day, in the place of 2,000
FEW = f"[fileroom-made-few]\nmaxretry = {MOST}\n"
OWN = "/etc/fail2ban/jail.d/zz-scene.conf"
PUT = ("/etc/fail2ban/filter.d/fileroom*.conf", "/etc/fail2ban/action.d/fileroom*.conf",
       "/etc/fail2ban/jail.d/fileroom*.conf", OWN, "/etc/fileroom/bounds.json")
STATUS = "sleep 5; fail2ban-client status fileroom"


class Scene:
    """`it` is the module of what scenes share; the lines are RUNNING's, in a shell."""

    def __init__(self, it, unpacked):
        self.it, self.tally, self.ann, self.made = it, it.tally, it.caller(), 0
        self.shell = typed.Shell(unpacked, HOME="/root")
        lines = [line for line, _ in typed.commands(it.TOP, "docs/RUNNING.md", "The front")]
        self.lines = [it for it in lines if it.startswith("F=") or "fail2ban" in it]

    def play(self):
        self.ann.open()
        self.installed()
        self.shut_out()
        self.held()
        self.it.must("sh", "-c", f"rm -f {' '.join(PUT)}")
        self.it.must("systemctl", "restart", "fail2ban")

    def installed(self):
        self.tally.differs("lines", len(self.lines), 12)
        failed = [line for line in self.lines if self.shell.does(line)[0] != 0]
        self.tally.differs("lines that fail", [it for it in failed if it != STATUS], [])
        self.it.write(OWN, FEW)
        self.it.must("systemctl", "restart", "fail2ban")
        self.it.until(lambda: self.it.said("fail2ban-client", "status", "fileroom-made-few")[0] == 0, "it counts")

    # Guesses, from another machine.

    @contextlib.contextmanager
    def guest(self):
        """A network of its own, with two addresses."""
        for words in (f"netns add {GUEST}", f"link add guest0 type veth peer name eth0 netns {GUEST}",
                      f"address add {HERE}/24 dev guest0", "link set guest0 up",
                      f"-n {GUEST} address add {GUESSES}/24 dev eth0", f"-n {GUEST} address add {OTHER}/24 dev eth0",
                      f"-n {GUEST} link set eth0 up"):
            self.it.must("ip", *words.split())
        yield
        self.it.must("ip", "netns", "delete", GUEST)

    def status(self, address, *words):
        asks = ["curl", "-sk", "-m", "20", "--interface", address, "-o", "/dev/null", "-w", "%{http_code}", *words]
        return self.it.said("ip", "netns", "exec", GUEST, *asks, f"https://{HERE}/whoami")[1]

    def shut_out(self):
        certified("/root/bounds", "DNS:room.lan")
        with authority.Scene(self.it.said, self.it.must, self.it.until, self.tally), self.guest():
            self.it.must("fileroom-admin", "tls", "/root/bounds/cert.pem", "/root/bounds/key.pem")
            self.it.until(lambda: self.status(OTHER) == "401", "the front by https")
            right = "-u", f"ann:{self.it.PASSWORDS['ann']}"
            self.tally.differs("before", self.status(GUESSES, *right), "200")
            guesses = [threading.Thread(target=self.status, args=(GUESSES, "-u", f"ann:{it}")) for it in range(10)]
            for it in guesses:
                it.start()
            for it in guesses:
                it.join()
            self.it.until(lambda: self.status(GUESSES, *right) == "000", "who guesses is shut out")
            self.tally.differs("another", self.status(OTHER, *right), "200")
            told = self.it.must("fail2ban-client", "status", "fileroom")
            self.tally.differs(f"whom it names: {told}", GUESSES in told and OTHER not in told, True)
            self.it.must("fail2ban-client", "set", "fileroom", "unbanip", GUESSES)
            self.it.until(lambda: self.status(GUESSES, *right) == "200", "it is let in again")
        self.it.seconds_until_served()

    # A login's day.

    def makes(self, count):
        """How many of so many folders are made, until one is not."""
        for done in range(count):
            self.made, self.ann.seq = self.made + 1, self.ann.seq + 1
            if self.again() != (200, b'{"code":0}'):
                return done
        return count

    def again(self):
        """What ann is answered to her last request, which acts once."""
        target = f"/v1/sessions/{self.ann.sid}/slots/0/{self.ann.seq}"
        got = self.it.once("POST", target, {"cmd": "MKDIR", "path": f"/bounded-{self.made}"})
        return (got.status, got.body) if got else (None, b"")

    def held(self):
        """(A folder's line is read some time after it is made.)"""
        reader = self.it.caller()
        reader.open()
        self.it.must("fileroom-admin", "bound", "plans", "few", "--user", "ann")
        self.tally.differs("below the bound", (self.makes(MOST - 5), self.again()[0]), (MOST - 5, 200))
        self.makes(5)
        self.it.until(lambda: self.again()[0] == 429, "ann is held")
        self.tally.differs("it is told", (b"held" in self.again()[1],
                                          "plans: ann is held since" in self.it.said("fileroom-admin", "check")[1]),
                           (True, True))
        target = f"/v1/sessions/{reader.sid}/slots/0/1"
        self.tally.differs("she reads on", self.it.once("POST", target, {"cmd": "LIST", "path": "/"}).status, 200)
        self.it.must("fileroom-admin", "user", "release", "plans", "ann")
        self.tally.differs("she is let go", self.again(), (200, b'{"code":0}'))
        self.tally.differs("counted anew", (self.makes(MOST - 5), self.again()[0]), (MOST - 5, 200))
