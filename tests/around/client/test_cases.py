"""The cases of docs/FILES.md, played by the command."""
import json
import os
from unittest import mock

import cases
import pytest
from cases import No
from room_client.line import Line
from served import HERE, text_of

pytestmark = pytest.mark.front


class Client:
    name = "client"
    size_words = staticmethod(str)

    def __init__(self, desk):
        self.desk, self.patched = desk, None

    def does(self, *words):
        """What it tells beside its output, which is left in `said`."""
        status, self.said, told = self.desk.does(*words)
        if status:
            raise No(told)
        return told

    def put(self, path, data):
        return self.does("put", self.desk.file("up", data), path)

    def get(self, path):
        self.does("get", path, "down")
        return self.desk.read("down")

    def list(self, path):
        self.does("ls", "-l", "--json", path)
        found = {it["name"]: it for it in json.loads(self.said)}
        return {name: "/" if it["kind"] == "folder" and not self.is_left(f"{path}/{name}") else
                "?" if it["kind"] == "folder" else str(it["size"]) for name, it in found.items()}

    def is_left(self, path):
        self.does("stat", path)
        return self.said.startswith("unfinished upload")

    def append(self, path):
        return self.does("append", self.desk.file("up", b"more"), path)

    def rename(self, path, to):
        return self.does("mv", path, to)

    def copy(self, path, to):
        return self.does("cp", path, to)

    def remove(self, path, how=None):
        return self.does("rm", "-r", *(["--for-good"] if how else []), path)

    def restore(self, name):
        return self.does("trash", "restore", name)

    def watch(self, hears):
        if self.patched:
            self.patched.stop()
        ask = Line.ask

        def heard(line, method, target, body):
            hears(body)
            return ask(line, method, target, body)
        self.patched = mock.patch.object(Line, "ask", heard) if hears else None
        if hears:
            self.patched.start()


def test_each_case_is_of_a_rule():
    text = text_of(os.path.join(HERE, "..", "docs", "FILES.md"))
    assert [it["rule"] for it in cases.TABLE["case"] if it["rule"] not in text] == []


@cases.each_case(Client)
def test_case(desk, number, case):
    cases.Played(number, case, Client(desk), cases.Judge(desk.served.port)).play()
