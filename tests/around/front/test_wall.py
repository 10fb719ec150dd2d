"""The machine's own wall, front/fileroom.nft, each test in a network of its own, which wants root: half-sent heads, who
answers at 8080, and what one address, one network and one site may begin."""
import contextlib
import grp
import os
import pwd
import re
import select
import shutil
import socket
import struct
import subprocess
import time

import pytest
from given import each
from nginx import FOLDER, PATH, login
from served import LIBC, loopback, message, text_of, until

from .conftest import started
from .sides import CHECK, LEAST, wrong

FRONT, OTHER = 8080, 8001  # ports of that network
WORKERS = "games"  # the group that stands for the workers'
HALVES = 700  # half-sent heads of one address: more than nginx here has connections (512)
AT_ONCE = 200  # connections of one address, and 30 more a second
ESTABLISHED = "01"  # a state, in /proc/net/tcp
ELSEWHERE = "127.0.0.9"  # (nginx listens at 127.0.0.1)
NEIGHBOURS = [f"10.99.0.{it}" for it in range(1, 21)]  # addresses of others
SERVER, SIX = "fd00::1", 8003  # of IPv6
NEAR, FAR = [f"fd00:0:0:1::{at:x}" for at in range(1, 31)], "fd00:0:0:2::1"
SITE, SITE_AT_ONCE, SITE_A_SECOND = "fd00:5:5", 400, 60  # a network of many networks (/48), and what it begins
WALLS_MARK, OTHERS_MARK = 0x40000000, 5  # of connections: the one of fileroom.nft, and of who else has rules
FEW = 8  # elements of a set that is soon full
SIX_USERS = [f"u{it:02}" for it in range(1, 11)]  # of whom each may have 16 requests under way at an address
OPEN, BEYOND = 100, 20  # requests under way of a network, and how many are more
ANY_ADDRESS = 15  # IP_FREEBIND
NEW_NETWORK = 0x40000000  # CLONE_NEWNET
SERVICE = os.path.join(FOLDER, "..", "service")


# The network, and the rules

@pytest.fixture
def network():
    """A network that this process alone is in, with addresses of others."""
    missing = [it for it in ("nft", "ip") if not shutil.which(it, path=PATH)] + ["root"] * (os.geteuid() != 0)
    if missing:
        pytest.skip(f"this machine lacks {' and '.join(missing)}")
    with open("/proc/self/ns/net", encoding="ascii") as before:
        assert LIBC.unshare(NEW_NETWORK) == 0
        try:
            loopback()
            add = "".join(f"addr add {it} dev lo{' nodad' * (':' in it)}\n" for it in (*NEIGHBOURS, SERVER, *NEAR, FAR))
            told("ip", "-batch", "-", input=f"{add}route add local {SITE}::/48 dev lo\n")
            yield
        finally:
            LIBC.setns(before.fileno(), NEW_NETWORK)


def told(*words, **how):
    done = subprocess.run(words, env={"PATH": PATH}, capture_output=True, text=True, **how)
    assert done.returncode == 0, done.stderr
    return done.stdout


def rules():
    """As they are installed, but for the group, which this machine may lack."""
    return text_of(os.path.join(FOLDER, "fileroom.nft")).replace("fileroom-front", WORKERS)


@pytest.fixture
def ports(network, tmp_path):
    """The rules are in force; the call of fileroom-ports that puts them again, with its status and what it says."""
    shutil.copy(os.path.join(SERVICE, "fileroom-ports"), tmp_path)
    shutil.copytree(os.path.join(SERVICE, "standby"), tmp_path / "standby")
    (tmp_path / "fileroom.nft").write_text(rules())

    def put():
        env = {"ROOMS": str(tmp_path), "PATH": PATH}
        done = subprocess.run([tmp_path / "fileroom-ports"], env=env, capture_output=True, text=True)
        return done.returncode, done.stdout + done.stderr
    for _ in range(2):  # (once more: the old rules go)
        assert put() == (0, "")
    return put


def test_the_rules_are_put_whole_or_not(ports, tmp_path):
    """Where a file is missing, or names no host, they stay as they were, and its status says so."""
    rules, hosts = tmp_path / "fileroom.nft", tmp_path / "a.hosts"
    before = told("nft", "--terse", "list", "ruleset")
    rules.rename(tmp_path / "away")
    assert (ports()[0] != 0, told("nft", "--terse", "list", "ruleset")) == (True, before)
    (tmp_path / "away").rename(rules)
    for text, status in ("10.0.0.1\nno host\n", 1), ("10.0.0.1\n10.0.0.2", 0):  # (it has no last line end)
        hosts.write_text(text)
        assert ports()[0] == status
    (tmp_path / "b.hosts").write_text("10.0.0.3\n")
    ports()
    found = re.findall(r"10\.[0-9.]+", told("nft", "list", "set", "inet", "fileroom", "hosts"))
    assert sorted(found) == ["10.0.0.1", "10.0.0.2", "10.0.0.3"]
    before = told("nft", "list", "ruleset")
    hosts.write_text("no host\n")
    assert (ports()[0], told("nft", "list", "ruleset")) == (1, before)


# What an address begins

def halves():
    """Connections of one address that sent half a head."""
    lines = [socket.socket() for _ in range(HALVES)]
    for line in lines:
        line.setblocking(False)
        line.bind(("127.0.0.1", 0))
        with contextlib.suppress(BlockingIOError):
            line.connect(("127.0.0.1", FRONT))
    time.sleep(1)
    for line in select.select([], lines, [], 0)[1]:
        with contextlib.suppress(OSError):
            line.sendall(b"GET /whoami HTTP/1.1\r\nhost: a")
    return lines


def taken(table):
    """How many connections the front's port has. (Whose last packet was dropped waits for another one.)"""
    rows = [it.split() for it in text_of(f"/proc/net/{table}").splitlines()[1:]]
    return sum(it[1].endswith(f":{FRONT:04X}") and it[3] == ESTABLISHED for it in rows)


def are_bounded(table, at_once, a_second, begin):
    count, most = taken(table), at_once + 10 + a_second * (time.monotonic() - begin)
    assert at_once // 2 < count <= most


def test_half_heads(ports, fronted):
    """They use up the connections of their address, and nobody else's."""
    front, begin = fronted(port=FRONT), time.monotonic()
    lines = halves()
    are_bounded("tcp", AT_ONCE, 30, begin)
    assert [front.status("u01", "GET", "/whoami", source=it) for it in NEIGHBOURS] == [200] * len(NEIGHBOURS)
    for line in lines:
        line.close()


def test_other_addresses_of_the_loopback(ports, fronted):
    """By them a user of the machine would be as many."""
    front = fronted(port=FRONT)
    found = [front.status("u01", "GET", "/whoami", source=it) for it in ("127.0.0.2", "127.9.9.9", NEIGHBOURS[0])]
    assert found == [None, None, 200]


def test_a_mark_of_another_table_stays(ports):
    """Beside that of the wall, for which such a connection is counted as any."""
    told("nft", f"add table ip x; add chain ip x first {{ type filter hook input priority -1; }}; "
                f"add chain ip x last {{ type filter hook input priority 1; }}; "
                f"add rule ip x first tcp dport {FRONT} ct state new ct mark set {OTHERS_MARK}; "
                f"add rule ip x last tcp dport {FRONT} ct mark {OTHERS_MARK | WALLS_MARK} counter")
    with socket.create_server(("127.0.0.1", FRONT)), socket.create_connection(("127.0.0.1", FRONT)) as line:
        line.sendall(b"GET")
        assert "counter packets 0" not in told("nft", "list", "chain", "ip", "x", "last")


def sum_of(data):
    """As TCP has it."""
    total = sum(data[at] << 8 | data[at + 1] for at in range(0, len(data), 2))
    while total >> 16:
        total = (total & 0xFFFF) + (total >> 16)
    return ~total & 0xFFFF


def first_packets(source, count):
    """Sends so many that begin connections, in somebody's name."""
    ends = socket.inet_aton(source) + socket.inet_aton("127.0.0.1")
    with socket.socket(socket.AF_INET, socket.SOCK_RAW, socket.IPPROTO_RAW) as raw:
        for port in range(20000, 20000 + count):
            tcp = struct.pack("!HHIIBBHHH", port, FRONT, 1, 0, 5 << 4, 2, 65535, 0, 0)
            its_sum = sum_of(ends + struct.pack("!BBH", 0, 6, len(tcp)) + tcp)
            tcp = tcp[:16] + struct.pack("!H", its_sum) + tcp[18:]
            raw.sendto(struct.pack("!BBHHHBBH", 0x45, 0, 40, 0, 0, 64, 6, 0) + ends + tcp, ("127.0.0.1", 0))
            time.sleep(0.015)  # (fewer than are refused for coming at once)


def test_in_anothers_name(ports, fronted):
    """Whose address others use, and who answers nothing to what comes of it, connects as before."""
    front, source = fronted(port=FRONT), NEIGHBOURS[1]
    told("nft", f"add table ip x; add chain ip x y {{ type filter hook output priority 0; }}; "
                f"add rule ip x y ip daddr {source} tcp dport 20000-21000 drop")
    first_packets(source, 300)
    assert [front.status("u01", "GET", "/whoami", source=source) for _ in range(5)] == [200] * 5


# Who answers at the front's port, where nginx is not there

@contextlib.contextmanager
def somebody(user, group, play, *words):
    """A process of this user and group that plays this, and our end of the socket by which it tells, and hears its
    end."""
    mine, its = socket.socketpair()
    child = os.fork()
    if child == 0:
        with contextlib.suppress(OSError):
            mine.close()
            os.setgroups([])
            os.setgid(grp.getgrnam(group).gr_gid)
            os.setuid(pwd.getpwnam(user).pw_uid)
            play(its, *words)
        os._exit(0)
    its.close()
    mine.recv(1)
    try:
        yield mine
    finally:
        mine.shutdown(socket.SHUT_WR)
        os.waitpid(child, 0)


def listening(its, address, port, family):
    with socket.create_server((address, port), family=family):
        its.send(b"x")
        its.recv(1)


@each("user, group, port, address, is_let", [
    ("nobody", "nobody", "nogroup", FRONT, ELSEWHERE, False),
    ("a server", "www-data", "www-data", FRONT, ELSEWHERE, False),
    ("a worker", "www-data", WORKERS, FRONT, ELSEWHERE, True), ("root", "root", "root", FRONT, ELSEWHERE, True),
    ("nobody at another port", "nobody", "nogroup", OTHER, ELSEWHERE, True),
    ("nobody by IPv6", "nobody", "nogroup", FRONT, "::1", False),
    ("nobody at another port by IPv6", "nobody", "nogroup", OTHER, "::1", True)])
def test_who_listens_at_a_port(ports, user, group, port, address, is_let):
    """Whether who connects there gets through."""
    family = socket.AF_INET6 if ":" in address else socket.AF_INET
    with somebody(user, group, listening, address, port, family), socket.socket(family) as line:
        line.settimeout(3)
        assert (line.connect_ex((address, port)) == 0) == is_let


def with_cookies(its):
    """A listener with a queue that is full, so that the kernel answers by SYN cookies, which no socket sends; tells
    what it was told."""
    listener = socket.socket(socket.AF_INET6)
    listener.setsockopt(socket.SOL_SOCKET, socket.SO_REUSEADDR, 1)
    listener.setsockopt(socket.IPPROTO_IPV6, socket.IPV6_V6ONLY, 0)
    listener.bind(("::", FRONT))
    listener.setsockopt(socket.IPPROTO_TCP, socket.TCP_DEFER_ACCEPT, 60)
    listener.listen(0)
    kept = [socket.socket(socket.AF_INET6) for _ in range(3)]
    for it in kept:
        it.setblocking(False)
        with contextlib.suppress(OSError):
            it.connect((SERVER, FRONT))
    time.sleep(0.5)
    its.send(b"x")
    listener.settimeout(8)
    with contextlib.suppress(OSError):
        while True:
            line, _ = listener.accept()
            line.settimeout(1)
            with contextlib.suppress(OSError):
                its.send(line.recv(4096))


def test_a_listener_by_syn_cookies_is_told_nothing(ports):
    if text_of("/proc/sys/net/ipv4/tcp_syncookies").strip() == "0":
        pytest.skip("this machine sends no SYN cookies")
    with somebody("nobody", "nogroup", with_cookies) as its:
        with socket.socket() as line, contextlib.suppress(OSError):
            line.settimeout(4)
            line.connect(("127.0.0.1", FRONT))
            line.sendall(b"GET / HTTP/1.1\r\nauthorization: Basic YW5uOnNlY3JldA==\r\n\r\n")
            line.recv(1)
    assert its.recv(4096) == b""


# IPv6

@contextlib.contextmanager
def served():
    """Somebody listens at the front's port by IPv6: the call that connects from some addresses, each patient for so
    many seconds, and gives how many more connections there are."""
    with contextlib.ExitStack() as open_ones:
        open_ones.enter_context(socket.create_server((SERVER, FRONT), family=socket.AF_INET6, backlog=1600))

        def connected(sources, patience=0.05):
            before = taken("tcp6")
            for source in sources:
                line = open_ones.enter_context(socket.socket(socket.AF_INET6))
                line.settimeout(patience)
                with contextlib.suppress(OSError):
                    line.setsockopt(socket.IPPROTO_IP, ANY_ADDRESS, 1)
                    line.bind((source, 0))
                    line.connect((SERVER, FRONT))
            return taken("tcp6") - before
        yield connected


def test_a_network(ports):
    """The addresses of one (/64) count as one."""
    with served() as connected:
        begin = time.monotonic()
        connected(20 * NEAR)
        are_bounded("tcp6", AT_ONCE, 30, begin)


def test_another_network(ports):
    """Of the same site has its own, while that has some left."""
    with served() as connected:
        connected(10 * NEAR)
        assert connected(60 * [FAR]) >= 60


def test_a_site(ports):
    """Of its networks (/48) so many connections come through as the site may begin. (An address of each.)"""
    with served() as connected:
        begin = time.monotonic()
        connected(f"{SITE}:{at:x}::1" for at in range(SITE_AT_ONCE * 3 // 2))
        are_bounded("tcp6", SITE_AT_ONCE, SITE_A_SECOND, begin)


def test_a_full_set(ports, tmp_path):
    """It lets nobody through whom it cannot count."""
    (tmp_path / "few.nft").write_text(re.sub(r"size \d+", f"size {FEW}", rules()))
    told("nft", "-f", tmp_path / "few.nft")
    with served() as connected:
        assert 0 < connected((f"{SITE}:{at:x}::2" for at in range(3 * FEW)), 0.5) <= FEW


def sent(source, *fields, count=1, target="/whoami", size=0):
    """A connection to nginx by IPv6 over which so many requests were sent, each without the body that it tells of."""
    line = socket.socket(socket.AF_INET6)
    line.settimeout(30)
    line.bind((source, 0))
    line.connect((SERVER, SIX))
    head = message(None, "POST" if size else "GET", target, fields=["host: a", *fields])
    line.sendall(head.replace(b"content-length: 0", b"content-length: %d" % size) * count)
    return line


def answers(line, count=1):
    came = piece = line.recv(1 << 16)
    while piece and (came.count(b"HTTP/1.1 ") < count or not came.endswith(b"</html>\r\n")):
        piece = line.recv(1 << 16)
        came += piece
    line.close()
    return re.findall(rb"HTTP/1.1 (\d+)", came)


@pytest.fixture
def by_six(network, memory, page, alone):
    """nginx without the wall, by IPv6."""
    folder = os.path.join(memory, "front")
    os.makedirs(os.path.join(folder, "rooms"))
    with open(os.path.join(folder, "rooms", "six.conf"), "w", encoding="ascii") as file:
        file.write(f"listen [{SERVER}]:{SIX};\n")
    return started(folder, page, os.path.join(memory, "no.sock"), SIX_USERS, rate="1r/s")


def test_requests_of_a_network(by_six):
    """nginx counts a network too."""
    begin, each_of = time.monotonic(), 20
    found = [it for source in NEAR for it in answers(sent(source, count=each_of), each_of)]
    passed, most = found.count(b"401"), 202 + time.monotonic() - begin
    assert set(found) == {b"401", b"429"}
    assert 200 <= passed <= most
    assert answers(sent(FAR)) == [b"401"]


def test_open_requests_of_a_network(by_six):
    """So many are under way, of whichever names and addresses; another network has its own."""
    right = [login(user, word) for user, word in by_six.users.items()]
    lines = [sent(NEAR[at % len(NEAR)], right[at % len(right)], target=CHECK, size=9) for at in range(OPEN + BEYOND)]
    assert until(lambda: len(select.select(lines, [], [], 0)[0]) == BEYOND)
    assert [answers(it) for it in select.select(lines, [], [], 0)[0]] == [[b"429"]] * BEYOND
    assert answers(sent(FAR)) == [b"401"]
    for it in lines:
        it.close()


def test_guesses_of_a_network(by_six):
    begin = time.monotonic()
    found = [answers(it)[0] for it in [sent(source, wrong("u01")) for source in NEAR]]
    assert set(found) == {b"401", b"429"}
    assert found.count(b"401") <= 16 * max((time.monotonic() - begin) // LEAST, 1)
