"""The cases of docs/FILES.md, played by the gateway."""
import re
from urllib.parse import unquote

import cases
from cases import No

RESPONSE = re.compile(r"<D:response>(.*?)</D:response>", re.DOTALL)


class Gateway:
    name = "gateway"
    quiet = 0.3  # seconds without a request, behind which none comes
    size_words = staticmethod(str)

    def __init__(self, desk):
        self.desk = desk

    def does(self, method, path, body=b"", **fields):
        got = self.desk.ask("ann", method, path, body, **fields)
        if got.status >= 300:
            raise No(f"{got.status} {got.body.decode()}")
        return got

    def put(self, path, data):
        return self.does("PUT", path, data).body.decode()

    def get(self, path):
        return self.does("GET", path).body

    def list(self, path):
        _, *inside = RESPONSE.findall(self.does("PROPFIND", path, Depth="1").body.decode())
        found = {}
        for it in inside:
            name = unquote(re.search("<D:href>([^<]*)", it)[1]).rstrip("/").rpartition("/")[2]
            size = re.search("<D:getcontentlength>([0-9]+)", it)
            found[name] = "/" if "<D:collection" in it else size and size[1]
        return found

    def rename(self, path, to):
        return self.does("MOVE", path, to=to)

    def copy(self, path, to):
        return self.does("COPY", path, to=to)

    def remove(self, path):
        return self.does("DELETE", path)

    def watch(self, hears):
        loser = self.desk.loser
        with loser.lock:
            loser.meanwhile = hears and (lambda message: hears(message), lambda: None)


@cases.each_case(Gateway)
def test_case(desk, number, case):
    cases.Played(number, case, Gateway(desk), cases.Judge(desk.served.port)).play()
