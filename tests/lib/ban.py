"""Debian's fail2ban as a server of one's own: with the machine's settings, and the filters, jails and action that are
shipped."""
import os
import re
import shutil
import subprocess

from served import HERE, end_with_parent, put_file, started_here, text_of, until

SHIPPED = os.path.join(HERE, "..", "service", "fail2ban")
JAILS = re.compile("fileroom-(?:made|sent)-(?:few|usual|many)")


class Fail2ban:
    """`log` is the front's log of changes, `bounded` gives the jails with other bounds, and `env` has what the action
    calls."""

    def __init__(self, folder, log, env, bounded=lambda jails: jails):
        etc = os.path.join(folder, "etc")
        self.words = ["-c", etc, "-s", os.path.join(folder, "sock")]
        shutil.copytree("/etc/fail2ban", etc, symlinks=True)
        shutil.rmtree(os.path.join(etc, "jail.d"))
        put_file(os.path.join(etc, "fail2ban.local"), "[Definition]\ndbfile = :memory:\n")
        for name, to in (("made", "filter.d/fileroom-made"), ("sent", "filter.d/fileroom-sent"),
                         ("hold", "action.d/fileroom-hold"), ("bounds", "jail.d/bounds")):
            text = text_of(os.path.join(SHIPPED, f"{name}.conf")).replace("/var/log/fileroom/changes.log", log)
            put_file(os.path.join(etc, f"{to}.conf"), bounded(text) if name == "bounds" else text)
        words = ["fail2ban-server", "-f", *self.words, "-p", f"{folder}/pid", "--logtarget", f"{folder}/log", "start"]
        how = {"stdout": subprocess.DEVNULL, "stderr": subprocess.DEVNULL, "preexec_fn": end_with_parent}
        self.server = subprocess.Popen(words, env=env, **how)
        started_here.append(self.server)
        if not until(lambda: len(JAILS.findall(self.asked("status"))) == 6):
            raise RuntimeError("fail2ban does not begin")

    def asked(self, *words):
        line = ["/usr/bin/fail2ban-client", *self.words, *words]
        return subprocess.run(line, capture_output=True, text=True).stdout

    def end(self):
        self.server.terminate()
        self.server.wait()
