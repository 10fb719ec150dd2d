"""A password leaves this machine over TLS alone, to whom the certificate is for, where its authority is trusted."""
import http.client
import re
import shutil
import ssl
import subprocess
from unittest import mock

import pytest
from given import each
from room_client import BadWords, Room, Settings
from served import HANGS

AWAY = ["http://192.0.2.2/rooms/plans", "http://room.example:8080", "http://128.0.0.1", "http://[2001:db8::1]:8080",
        "http://localhost.example", "http://127.0.0.1.example", "http://[::ffff:192.0.2.2]"]
HERE = ["http://127.0.0.1:1", "http://127.9.9.9", "http://[::1]:1", "http://localhost:1", "https://192.0.2.2"]
OURS = "DNS:localhost,IP:127.0.0.1"
pytestmark = [pytest.mark.front, pytest.mark.skipif(not shutil.which("openssl"), reason="there is no openssl")]


@pytest.mark.parametrize("url", AWAY)
def test_login_in_the_clear_stays_here(tmp_path, url):
    with mock.patch.object(http.client.HTTPConnection, "connect") as connect:
        with pytest.raises(BadWords, match="in the clear, and nothing was sent.*has to begin with https:"):
            with Room(Settings(url=url, login="ann", password="x", state=str(tmp_path / "x"), patience=0)):
                pass
        connect.assert_not_called()


def test_login_goes_to_this_machine_or_over_tls():
    for url in HERE:
        Settings(url=url, login="ann", password="x")
    Settings(url=AWAY[0], room_user="ann")  # (no password goes with it)


@pytest.fixture
def says(desk):
    """What is told of a front with a certificate of its own authority, for these names, that ends in so many days."""
    def make(kind, *words):
        line = ["openssl", kind, *words, *(["-newkey", "rsa:2048", "-nodes"] if kind == "req" else [])]
        subprocess.run(line, cwd=desk.folder, check=True, capture_output=True, timeout=HANGS)

    def serve(names, days):
        desk.file("names", f"subjectAltName={names}".encode())
        make("req", "-x509", "-days", "2", "-keyout", "ca.key", "-out", "ca.pem", "-subj", "/CN=a club's own",
             "-addext", "keyUsage=keyCertSign")
        make("req", "-keyout", "key", "-out", "asked", "-subj", "/CN=front")
        make("x509", "-req", "-in", "asked", "-CA", "ca.pem", "-CAkey", "ca.key", "-days", days, "-out", "front.pem",
             "-extfile", "names", "-CAcreateserial")
        context = ssl.SSLContext(ssl.PROTOCOL_TLS_SERVER)
        context.load_cert_chain(desk.path("front.pem"), desk.path("key"))
        desk.front.socket = context.wrap_socket(desk.front.socket, server_side=True, do_handshake_on_connect=False)

    def says(authority, *words, names=None, days="2"):
        if names:
            serve(names, days)
        flags = ["--url", desk.front_url.replace("http:", "https:"), "--login", "ann", "--password-file",
                 desk.path("secret"), *(["--ca-file", authority] if authority else [])]
        return desk.does(*words, flags=flags, own_settings=False)
    return says


@each("authority, how, status, want", [
    ("not trusted", None, {"names": OURS}, 3, r"its certificate is not trusted \(.*\): where the room has an authority "
     "of its own, ask who runs it for its certificate, and name that by ca-file; else do not go"),
    ("another name", "ca.pem", {"names": "DNS:other.example"}, 3, r"its certificate is for another name \(.*\): write "
     "the name that it is for into the URL"),
    ("expired", "ca.pem", {"names": OURS, "days": "-1"}, 3, "its certificate has expired: tell who runs the room, if "
     "the clock of this machine is right"),
    ("none", None, {}, 3, "127.0.0.1 speaks no TLS there: ask who runs the room for its address"),
    ("odd authority", "odd.pem", {}, 5, "odd.pem has no certificate in it .*: correct ca-file"),
    ("no authority", "none.pem", {}, 5, "none.pem: No such file or directory")])
def test_certificate(desk, says, authority, how, status, want):
    desk.file("odd.pem", b"odd")
    got = says(authority, "mkdir", "/a", **how)
    assert got[:2] == (status, "")
    assert re.fullmatch(f"room: [^\n]*{want}[^\n]*\n", got[2])
    assert desk.front.passed == 0


def test_certificate_of_an_authority_of_ones_own(desk, says):
    assert says("ca.pem", "mkdir", "/a", names=OURS) == (0, "/a: made\n", "")
    assert says("ca.pem", "ls") == (0, "a/\n", "")
    assert desk.front.passed > 2
