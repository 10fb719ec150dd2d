#!/usr/bin/env python3
"""rule.py TRACE [ROOM.DB]: judges recorded requests (recorded.py): by the rule of a client that acts once
(docs/SLOTS.md, A client that acts once), and what the room answered by the law that the rule leads to.

A line of the trace is a request, in the order in which the room got those of a slot: {"user", "method", "target",
"body", "answered": [STATUS, TEXT] or null, "told": whether the client was sent that, "is_late": whether it is a copy
that was held up}. A line {"anew": true} says that from here on the room knows no session of before.
"""
import base64
import contextlib
import json
import re
import sqlite3
import sys
from collections import Counter, defaultdict

TARGET = re.compile(r"/v1/sessions/([0-9a-f]{32})(?:/slots/([0-9]+)/([0-9]+))?")
BADSESSION, MISORDERED, FALSE_RETRY, UNCACHED, DELAY = 20, 22, 23, 25, 30
OWN = range(20, 26)  # codes of a session, slot or number
OF_MESSAGE = range(40, 44)  # such a message asks nothing
LOOKS = ("ACCESS", "GETLIST", "LIST", "READ", "STAT")
MOST_TOLD = 20
COUNTED = ("requests", "slots", "commands", "unheard", "again", "late", "false", "given up", "after the end")


class Asked:
    """One request to a slot, as the judge takes it."""

    def __init__(self, it):
        self.command = json.loads(it["body"])
        self.keep = self.command.pop("keep", True)
        self.text = json.dumps(self.command, separators=(",", ":"), sort_keys=True)
        self.body, self.told, self.is_late = it["body"], it["told"], it["is_late"]
        answered = it["answered"]
        self.answer = answered and answered[1]
        self.code = json.loads(answered[1])["code"] if answered else DELAY

    @property
    def is_answered(self):
        return self.code != DELAY

    @property
    def is_harmless(self):
        return self.command["cmd"] in ("ACCESS", "STAT") and self.command["path"] == "/"

    @property
    def is_look(self):
        return self.command["cmd"] in LOOKS

    @property
    def is_done(self):
        """Whether it was answered that it ran: by its reply, or that this is not kept."""
        return self.code < OWN[0] or self.code == UNCACHED

    @property
    def is_refused(self):
        """Whether its command was, and so changed nothing."""
        return 0 < self.code < OWN[0]


class Slot:
    """What is known of a slot: `done`, of how many commands its client was told that they ran; of each number what it
    was asked for, and what ran, with its answer."""

    def __init__(self, name, is_over):
        self.name, self.done = name, 0
        self.is_over = is_over  # its session was closed, or is gone
        self.asked = defaultdict(dict)  # number -> text -> whether that is harmless
        self.ran, self.answers = {}, {}
        self.bodies, self.unkept = defaultdict(set), set()

    @property
    def newest(self):
        return max(self.ran, default=0)


class Judge:
    """Without `is_strict` a client may ask for anything with a number that it used, and for the same elsewhere."""

    def __init__(self, is_strict=True):
        self.is_strict = is_strict
        self.slots, self.sessions, self.gone = {}, {}, set()
        self.faults, self.counts = [], Counter(dict.fromkeys(COUNTED, 0))
        self.places = defaultdict(dict)  # text of a change -> where it may have acted -> the slot, and the number
        self.what = ""

    def fault(self, text):
        self.faults.append(f"{self.what}: {text}")

    def take(self, it):
        """The next line."""
        if "anew" in it:
            for slot in self.slots.values():
                slot.is_over = True
            self.gone |= set(self.sessions)
            return
        match = TARGET.fullmatch(it["target"])
        if not match or it["answered"] and json.loads(it["answered"][1]).get("code") in OF_MESSAGE:
            return
        session, number, seq = match.groups()
        self.what = f"{it['user']} {session[:6]}"
        if number is None:
            self._take_session((it["user"], session), it)
        else:
            self._take_slot((it["user"], session, int(number)), int(seq), Asked(it))

    def _take_session(self, key, it):
        code = json.loads(it["answered"][1])["code"] if it["answered"] else DELAY
        if it["method"] == "DELETE":
            self.gone.add(key)
            for name, slot in self.slots.items():
                slot.is_over |= name[:2] == key
            return
        if code == 0:
            self.gone.discard(key)  # (an OPEN before it was lost)
        if it["told"] and code == 0 or key not in self.sessions:
            self.sessions[key] = it["told"] and code == 0

    def _take_slot(self, name, number, asked):
        self.counts["requests"] += 1
        self.counts["unheard"] += not asked.told or not asked.is_answered
        self.counts["late"] += asked.is_late
        slot = self.slots.setdefault(name, Slot(name, name[:2] in self.gone))
        self.what += f"/{name[2]}/{number} {asked.text[:60]}"
        if not self.sessions.get(name[:2]) and name[:2] not in self.gone:
            self.fault("the session was not known to be open")
        if slot.is_over:
            self._take_after_end(slot, asked)
        if not asked.is_late:
            self._judge_number(slot, number, asked)
            self._judge_place(slot, number, asked)
        slot.asked[number][asked.text] = asked.is_harmless
        slot.bodies[number].add(asked.body)
        if not asked.keep:
            slot.unkept.add(number)
        if not slot.is_over and asked.is_answered:
            self._judge_answer(slot, number, asked)
        if asked.told:
            self._hear(slot, number, asked)

    def _take_after_end(self, slot, asked):
        """(What is held up may come later still, and who was not told of the end may ask once more.)"""
        self.counts["after the end"] += 1
        if asked.is_answered and asked.code != BADSESSION:
            self.fault(f"the session had ended, and it was answered {asked.answer}")

    def _judge_number(self, slot, number, asked):
        """The client's rule: the number after all commands of which it knows that they ran; or a number that it used,
        for what it asked then. A harmless command gives up the one before it."""
        if not 1 <= number <= slot.done + 1:
            return self.fault(f"RULE: {slot.done} were told done")
        self.counts["again"] += asked.text in slot.asked[number]
        if not self.is_strict:
            return None
        is_other = asked.text not in slot.asked[number] and not asked.is_harmless
        if is_other and not all(slot.asked[number].values()):
            self.fault("RULE: the number was used for another command")
        if is_other and number <= slot.done:
            self.fault("RULE: a number that was done is used for another command")
        if asked.text in slot.asked[number] and asked.body not in slot.bodies[number]:
            self.fault("RULE: sent again with other bytes")
        return None

    def _judge_place(self, slot, number, asked):
        """A change goes to one slot, under one number, until it is known whether it acted. (Whoever drives the clients
        wants none again of which that is not known, and no bytes done twice: what was refused may be asked again.)"""
        if asked.is_look or not self.is_strict:
            return
        places = self.places[asked.text]
        for place in places:
            if place != (slot.name, number):
                self.fault(f"RULE: it may have acted as {place[0][1][:6]}/{place[0][2]}/{place[1]}")
        if asked.told and asked.code == FALSE_RETRY:
            places.pop((slot.name, number), None)
        elif not (asked.told and asked.code in OWN and asked.code != UNCACHED):
            places[slot.name, number] = True

    def _judge_answer(self, slot, number, asked):
        """The law: each command runs once, in order; a copy is answered as at first, or that this is not kept."""
        ran, newest = slot.ran.get(number), slot.newest
        others = set(slot.asked[number]) - {asked.text}
        if asked.is_done:
            if number not in (newest, newest + 1):
                return self.fault(f"LAW: {newest} was the newest, and it was answered {asked.answer}")
            if ran not in (None, asked.text):
                return self.fault(f"LAW: another ran, and it was answered {asked.answer}")
            self._judge_reply(slot, number, asked)
            slot.ran[number] = asked.text
        elif asked.code == FALSE_RETRY:
            self.counts["false"] += 1
            if ran == asked.text or not others:
                self.fault("LAW: a false retry of what ran")
            if ran is None and len(others) == 1:
                slot.ran[number], = others
        elif asked.code != MISORDERED or number >= newest + (number + 1 in slot.asked):
            self.fault(f"LAW: {newest} was the newest, and it was answered {asked.answer}")

    def _judge_reply(self, slot, number, asked):
        first = slot.answers.setdefault(number, asked.answer)
        if asked.code == UNCACHED:
            if number not in slot.unkept:
                self.fault("LAW: its reply was to be kept")
        elif asked.answer != first:
            self.fault(f"LAW: first {first}, and now {asked.answer}")

    def _hear(self, slot, number, asked):
        """What the client knows then."""
        if number != slot.done + 1 or slot.is_over:
            return
        others = set(slot.asked[number]) - {asked.text}
        if asked.is_done:
            slot.done += 1
            self.counts["commands"] += 1
            if "data" not in asked.command or asked.is_refused:
                self.places[asked.text].pop((slot.name, number), None)
            for other in others & set(self.places):  # (it is given up: it never acts)
                self.counts["given up"] += 1
                self.places[other].pop((slot.name, number), None)
        elif asked.code == FALSE_RETRY:
            if len(others) > 1 and not self.is_strict:
                return
            if len(others) > 1:
                self.fault(f"RULE: which one ran is not known: {sorted(others)}")
            slot.done += 1
            self.counts["commands"] += 1

    def end(self):
        self.counts["slots"] = len(self.slots)
        return self

    def judge_kept(self, db):
        """What the room's file keeps of each slot: the newest command that ran, or the one that was asked for since."""
        self.what = "the file"
        with contextlib.closing(sqlite3.connect(f"file:{db}?mode=ro", uri=True)) as table:
            rows = table.execute("SELECT sid, slot, seq, request FROM kept").fetchall()
        kept = {(sid, slot): (seq, json.dumps(json.loads(text), separators=(",", ":"), sort_keys=True))
                for sid, slot, seq, text in rows}
        for (_, sid, number), slot in self.slots.items():
            if slot.is_over:
                continue
            seq, text = kept.get((sid, number), (0, None))
            did = seq == slot.done and text == slot.ran.get(seq)
            more = seq == slot.done + 1 and text in slot.asked[seq]
            if not (did or more):
                self.fault(f"{sid[:6]}/{number} keeps {seq} {text}, and {slot.done} were told done")

    def judge_documents(self, documents):
        """Each piece that was appended stands in its document once, those of a slot in order; one of which that is not
        known, once or not at all."""
        surely, perhaps = defaultdict(list), defaultdict(set)
        for slot in self.slots.values():
            for number, texts in slot.asked.items():
                for text in texts:
                    self._sort(slot, number, text, surely, perhaps)
        for path, data in documents.items():
            self._judge_document(path, data, surely, perhaps[path])

    def _sort(self, slot, number, text, surely, perhaps):
        command = json.loads(text)
        if command["cmd"] != "APPEND":
            return
        ran, first = slot.ran.get(number), slot.answers.get(number)
        if ran is None or ran == text and (first is None or json.loads(first)["code"] == UNCACHED):
            perhaps[command["path"]].add(command["data"])
        elif ran == text and json.loads(first)["code"] == 0:
            surely[slot.name, command["path"]].append((number, command["data"]))

    def _judge_document(self, path, data, surely, perhaps):
        """(A piece ends with its only point.)"""
        found = [base64.b64encode(it + b".").decode() for it in data.split(b".")[:-1]]
        at, self.what = {it: place for place, it in enumerate(found)}, path
        if len(at) < len(found):
            self.fault(f"LAW: done twice: {[it for it, times in Counter(found).items() if times > 1][:9]}")
        for (_, where), pieces in surely.items():
            if where == path:
                places = [at.get(it, -1) for _, it in sorted(pieces)]
                perhaps = perhaps | {it for _, it in pieces}
                if -1 in places or places != sorted(places):
                    self.fault(f"LAW: not done, or not in order: {places}")
        if set(found) - perhaps:
            self.fault(f"LAW: nobody asked for {list(set(found) - perhaps)[:9]}")
        self.counts["pieces"] += len(found)


def judged(lines):
    judge = Judge()
    for line in lines:
        judge.take(json.loads(line))
    return judge.end()


if __name__ == "__main__":
    with open(sys.argv[1], encoding="utf-8") as trace:
        its = judged(trace)
    if len(sys.argv) > 2:
        its.judge_kept(sys.argv[2])
    print(*its.faults[:MOST_TOLD], dict(its.counts), f"{len(its.faults)} faults", sep="\n")
    sys.exit(bool(its.faults))
