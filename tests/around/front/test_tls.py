"""The front by TLS, with a certificate of its own: front/tls.conf in the place of listen.conf, and redirect.conf."""
import contextlib
import csv
import os
import re
import shutil
import ssl
import subprocess

import pytest
from given import each
from nginx import certified, login
from served import Line, end_with_parent, free_port, message, put_file, text_of

from .sides import log_of, values, wrong

NAME = "room.example"
PROOF = "/.well-known/acme-challenge/"
RIGHT = login("u01", "word of u01")
NAME_OF_A_CIPHER = r"\b(TLS_|[A-Z0-9]+-)[A-Z0-9_-]+"  # as testssl has it


@pytest.fixture(scope="module")
def cert(tmp_path_factory):
    return certified(tmp_path_factory.mktemp("tls"), f"DNS:{NAME}")[0]


@pytest.fixture
def encrypted(fronted, memory, cert):
    """A front by TLS; `http` is a port for who comes without, `trusted` the certificate that callers trust."""
    shutil.copytree(os.path.dirname(cert), os.path.join(memory, "front", "tls"))
    http = free_port()
    front = fronted(http=http, names=f"{NAME} www.{NAME}", dav=os.path.join(memory, "no.sock"))
    front.http, front.trusted = http, cert
    return front


def ask(front, target, *fields):
    """The answer to one message by TLS, asked by that name."""
    with contextlib.closing(Line(front.port)) as line:
        context = ssl.create_default_context(cafile=front.trusted)
        line.socket = context.wrap_socket(line.socket, server_hostname=NAME)
        return line.ask(message(None, "GET", target, fields=[f"host: {NAME}", *fields]))


def in_the_clear(port, target, *fields, name=NAME):
    with contextlib.closing(Line(port)) as line:
        return line.ask(message(None, "GET", target, fields=[f"host: {name}", *fields]))


def test_a_login_by_tls(encrypted):
    got = ask(encrypted, "/whoami", RIGHT)
    assert (got.status, got.body) == (200, b'"u01"\n')
    assert len(values(got, ["content-security-policy"])["content-security-policy"]) == 1


@each("target", [("the site", "/whoami"), ("WebDAV", "/dav/plans/x")])
def test_by_tls_alone_from_then_on(encrypted, target):
    name = "strict-transport-security"
    assert values(ask(encrypted, target, RIGHT), [name]) == {name: ["max-age=15768000"]}


@each("fields, status", [("no login", [], 401), ("a wrong one", [wrong("u01")], 401),
                         ("its own page", [RIGHT, f"origin: https://{NAME}"], 200),
                         ("its page by http", [RIGHT, f"origin: http://{NAME}"], 403),
                         ("a page of elsewhere", [RIGHT, "origin: https://a.b"], 403)])
def test_who_may_ask_by_tls(encrypted, fields, status):
    assert ask(encrypted, "/whoami", *fields).status == status


def test_who_does_not_trust_the_certificate(encrypted):
    encrypted.trusted = None
    with pytest.raises(ssl.SSLCertVerificationError):
        ask(encrypted, "/whoami", RIGHT)


@each("fields", [("no login", []), ("a login", [RIGHT])])
def test_the_way_to_https(encrypted, fields):
    """There is nothing else in the clear, also for who sends a password; and nobody is led to another name."""
    for name in NAME, f"www.{NAME}":
        got = in_the_clear(encrypted.http, "/whoami?a=b", *fields, name=name)
        assert (got.status, values(got, ["location"])) == (301, {"location": [f"https://{name}/whoami?a=b"]})
    assert in_the_clear(encrypted.port, "/whoami?a=b", *fields).status == 400


@pytest.mark.parametrize("name", ["other.example", f"x.{NAME}", "127.0.0.1"])
def test_no_way_from_another_name(encrypted, name):
    assert in_the_clear(encrypted.http, "/whoami?a=b", RIGHT, name=name) is None


def test_what_certbot_puts_there(encrypted):
    folder = os.path.join(encrypted.folder, "www") + PROOF
    os.makedirs(folder)
    put_file(os.path.join(folder, "x"), "it is mine")
    got = in_the_clear(encrypted.http, PROOF + "x")
    assert (got.status, got.body) == (200, b"it is mine")
    for target in PROOF + "y", PROOF + "z" * 1600:
        assert in_the_clear(encrypted.http, target).status == 404
    assert [text_of(log_of(encrypted, it)) for it in ("error.log", "errors", "access.log")] == ["", "", ""]


def test_what_is_no_tls_is_not_told(encrypted):
    """Whoever sends it; a room that is gone is told."""
    for sent in b"GET / HTTP/1.1\r\n\r\n", b"\x16\x03\x01\xff\xff" + bytes(64):  # (a record that is too long)
        with contextlib.closing(Line(encrypted.port)) as line, contextlib.suppress(OSError):
            line.send(sent)
            line.to_end()
    assert text_of(log_of(encrypted, "error.log")) == ""
    assert ask(encrypted, "/rooms/gone/v1/check", RIGHT).status == 502
    told = text_of(log_of(encrypted, "error.log")).splitlines()
    assert [("[crit]" in it, "No such file" in it) for it in told] == [(True, True)]


@pytest.mark.timeout(900)
@pytest.mark.skipif(not shutil.which("testssl"), reason="this machine lacks testssl (apt-get install testssl.sh)")
def test_testssl(encrypted, tmp_path):
    """All that it finds offered: TLS 1.2 and 1.3, each cipher with forward secrecy, and authenticated."""
    words = ["testssl", "--quiet", "--color", "0", "--warnings", "off", "--nodns", "none", "--ip", "127.0.0.1",
             "--csvfile", tmp_path / "table", "-E", f"https://127.0.0.1:{encrypted.port}"]
    done = subprocess.run(words, stdin=subprocess.DEVNULL, capture_output=True, text=True, preexec_fn=end_with_parent)
    with open(tmp_path / "table", encoding="utf-8", newline="") as file:
        rows = [it for it in csv.DictReader(file) if it["id"].startswith("cipher-")]
    found = [(it["id"].partition("_x")[0], re.search(NAME_OF_A_CIPHER, it["finding"])[0]) for it in rows]
    assert {it for it, _ in found} == {"cipher-tls1_2", "cipher-tls1_3"}, done.stderr[-300:]
    assert [it for it in found if not re.fullmatch(r"(ECDHE-|TLS_).*(GCM|CHACHA20)\S*", it[1])] == []
    assert [it for it in rows if it["severity"] not in ("OK", "INFO")] == []
