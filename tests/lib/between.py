"""What stands between a client and a front: it hands each message on, and may lose it or its answer."""
import contextlib
import re
import socket
import threading


class Between:
    """`fate` says what becomes of a message: it is lost (`request`), or its answer is (`answer`), or the last byte of
    that (`cut`); then the connection ends. Each goes on by a connection of its own, to a port or a socket's path."""

    def __init__(self, listener, to):
        self.listener, self.to = listener, to
        threading.Thread(target=self._serve, daemon=True).start()

    def fate(self, message):
        return "none"

    def end(self):
        self.listener.close()

    def _serve(self):
        with contextlib.suppress(OSError):
            while True:
                peer, _ = self.listener.accept()
                threading.Thread(target=self._hand_on, args=(peer,), daemon=True).start()

    def _hand_on(self, peer):
        with contextlib.suppress(OSError), peer:
            while message := read_message(peer):
                fate = self.fate(message)
                answer = self._answer(message) if fate != "request" else b""
                if fate in ("request", "answer") or not answer:
                    return
                peer.sendall(answer[:-1] if fate == "cut" else answer)
                if fate == "cut":
                    return

    def _answer(self, message):
        is_path = isinstance(self.to, str)
        with socket.socket(socket.AF_UNIX if is_path else socket.AF_INET) as front:
            front.connect(self.to if is_path else ("127.0.0.1", self.to))
            front.sendall(message)
            return read_message(front)


def read_message(sock):
    """One message with its length, or nothing at the end."""
    data = b""
    while b"\r\n\r\n" not in data:
        more = sock.recv(65536)
        if not more:
            return b""
        data += more
    head, _, body = data.partition(b"\r\n\r\n")
    told = re.search(rb"(?i)\r\ncontent-length: *([0-9]+)", head)
    left = int(told[1]) - len(body) if told else 0
    parts = [data]
    while left > 0:
        parts.append(sock.recv(65536))
        if not parts[-1]:
            return b""
        left -= len(parts[-1])
    return b"".join(parts)
