"""Nobody is at the address, or nobody any more: that takes a part of the patience, and not all of it."""
import os
import socket
import subprocess
import threading
import time
from unittest import mock

import pytest
from room_client import NoAnswer, Settings
from room_client.line import Line, Lost
from served import loopback

DROP = "table inet x { chain y { type filter hook output priority 0; oif lo drop; }; }"
PATIENT = 240  # seconds that the request may take


def test_at_an_address_at_which_nobody_is(desk):
    """A port whose queue is full drops what comes, as a machine that is off does."""
    said = []
    with socket.socket() as full, socket.socket() as held:
        full.bind(("127.0.0.1", 0))
        full.listen(0)
        held.connect(full.getsockname())
        with (mock.patch.object(Line, "open", autospec=True, side_effect=Line.open) as opened,
              pytest.raises(NoAnswer, match="in 10 s .timed out")):
            with desk.room(say=said.append, url=f"http://127.0.0.1:{full.getsockname()[1]}", patience=10):
                pytest.fail("somebody answered")
    assert [it.args[1] <= 10 for it in opened.call_args_list] == [True] * 2
    assert "no answer yet (timed out): " in said[0] and "it is sent again" in said[0], said


def test_an_answer_may_take_longer_than_a_connection():
    """Of which several are tried in the patience of one request."""
    with socket.create_server(("127.0.0.1", 0)) as server, mock.patch("room_client.line.LONGEST_CONNECT", 0.2):
        def answers():
            with server.accept()[0] as peer:
                peer.recv(1 << 16)
                time.sleep(0.5)
                peer.sendall(b'HTTP/1.1 200 OK\r\ncontent-length: 10\r\n\r\n{"code":0}')
        answer = threading.Thread(target=answers)
        answer.start()
        line = Line(Settings(url=f"http://127.0.0.1:{server.getsockname()[1]}", room_user="ann"))
        line.open(60)
        assert line.ask("POST", "/", b"{}").status == 200
        answer.join()
        line.close()


@pytest.mark.skipif(os.geteuid() != 0, reason="it wants root")
@pytest.mark.within("unshare", "--net")
def test_a_peer_that_goes_silent():
    loopback()
    with socket.create_server(("127.0.0.1", 0)) as server:  # (it takes what comes, and answers nothing)
        line = Line(Settings(url=f"http://127.0.0.1:{server.getsockname()[1]}", room_user="ann"))
        line.open(PATIENT)
        kept = []

        def drops():
            kept.append(server.accept()[0])
            kept[0].recv(1)
            time.sleep(0.5)  # (the system has told by then that it came)
            subprocess.run(["nft", DROP], check=True)
        drop = threading.Thread(target=drops)
        drop.start()
        begin = time.monotonic()
        with pytest.raises(Lost):
            line.ask("POST", "/", b"{}")
        drop.join()
        kept[0].close()
    assert time.monotonic() - begin < PATIENT / 2
