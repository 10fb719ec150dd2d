"""What stands between a room's socket and its port, as its unit has it."""
import os
import re
import resource
import socket
import subprocess

from served import HERE, end_with_parent, started_here, text_of

SERVICE = os.path.join(HERE, "..", "service")
HAPROXY = "/usr/sbin/haproxy"
DESCRIPTOR = 3  # (systemd's first)
DESCRIPTORS = 1024  # (that a unit has)


class Turns:
    """It listens at a path, and hands on to a port."""

    def __init__(self, path, port):
        words, = re.findall(r"(?m)^ExecStart=(.*)$", text_of(os.path.join(SERVICE, "fileroom-proxy@.service")))
        with socket.socket(socket.AF_UNIX) as listener:
            listener.bind(path)
            listener.listen(4096)  # (as systemd does)

            def begins():
                end_with_parent()
                resource.setrlimit(resource.RLIMIT_NOFILE, (DESCRIPTORS, DESCRIPTORS))
                os.dup2(listener.fileno(), DESCRIPTOR)
                os.set_inheritable(DESCRIPTOR, True)  # (where it had that number)
            words, env = words.replace("@SHARE@", SERVICE).split(), {**os.environ, "PORT": str(port)}
            self.process = subprocess.Popen(words, preexec_fn=begins, close_fds=False, env=env)
        started_here.append(self.process)

    def close(self):
        self.process.kill()
        self.process.wait()
