"""What mallory runs on the machine: programs, as texts."""

TAKE = """
import socket, sys, time
def bound():
    while True:
        it = socket.socket()
        it.setsockopt(socket.SOL_SOCKET, socket.SO_REUSEADDR, 1)
        try:
            it.bind(("127.0.0.1", int(sys.argv[1])))
            it.listen(100)
            return it
        except OSError:
            it.close()
            time.sleep(0.002)
print("begins", flush=True)
it = bound()
while True:
    line, _ = it.accept()
    line.settimeout(2)
    try:
        print(line.recv(65536), flush=True)
        head = b"HTTP/1.1 200 OK\\r\\ncontent-length: %d\\r\\n\\r\\n" % len(sys.argv[2])
        line.sendall(head + sys.argv[2].encode())
    except OSError:
        pass
    line.close()
"""

REACH = """
import socket, sys
it = socket.socket(socket.AF_UNIX if sys.argv[1].startswith("/") else socket.AF_INET)
it.settimeout(5)
try:
    it.connect(sys.argv[1] if sys.argv[1].startswith("/") else ("127.0.0.1", int(sys.argv[1])))
    it.sendall(b"POST /v1/check HTTP/1.1\\r\\nroom-user: ann\\r\\ncontent-length: 0\\r\\n\\r\\n")
    print("reached" if it.recv(4) == b"HTTP" else "refused")
except OSError as fault:
    print("refused")
"""

READS = """
import glob, json, os, resource, socket
def reads(path):
    try:
        return bool(os.listdir(path) if os.path.isdir(path) else open(path, "rb").read(1))
    except OSError:
        return False
"""

PROBE = READS + """
looks = ["/var/lib/fileroom/club", "/var/lib/fileroom/club/room.db", "/var/backups/fileroom",
         "/etc/nginx/fileroom/rooms.json", *glob.glob("/proc/*/root/var/lib/fileroom/club")]
seen = [it for it in looks if reads(it)]
try:
    resource.prlimit(OTHER, resource.RLIMIT_NOFILE, (0, 0))
    seen.append("the limits of another room")
except OSError:
    pass
try:
    open("/var/lib/fileroom/plans/probe", "w").write(repr((reads("/var/lib/fileroom/plans/room.db"), seen)))
except OSError as fault:
    print(fault)
os.kill(-1, 19)  # (SIGSTOP, to all of the same user's)
open("/var/lib/fileroom/plans/probe", "w").write("it sent a signal")
"""
