"""A room of some years is renewed by the nightly backup, which its timer starts, while people write."""
import os

DB = "/var/lib/fileroom/plans/room.db"
PAST = 600_001  # its next number: more than half of all are used, and nearly all of these by what is gone
RENEWED = "objects; of 1,000,000 numbers 600,"  # in the journal of the backup's unit


class Scene:
    """`its` is the script of the scenes."""

    def __init__(self, its):
        self.its, self.tally = its, its.tally

    def used(self):
        """How many numbers, as the latest backup has it."""
        latest = max(it for it in self.its.backups("plans") if it[0] != ".")
        return int(self.its.text_of(os.path.join("/var/backups/fileroom/plans", latest, "numbers")))

    def told(self):
        self.its.must("journalctl", "--sync")
        return self.its.must("journalctl", "--no-pager", "--boot", "--output=cat", "--unit=fileroom-backup@plans")

    def play(self):
        its = self.its
        its.must("systemctl", "stop", "fileroom@plans")
        its.must(*its.as_user("fileroom", "fileroom", "sqlite3", "-batch", DB, f"UPDATE room SET next = {PAST}"))
        its.must("systemctl", "start", "fileroom@plans")
        its.seconds_until_served()
        with its.drop_ins({"fileroom-backup@plans.service": "[Service]\nEnvironment=RENEW=no\n"}):
            its.must("systemctl", "start", "fileroom-backup@plans")
        self.tally.differs("where RENEW=no", (self.used(), RENEWED in self.told()), (PAST - 1, False))
        writers = its.Writers(4, 60, 201)
        with its.drop_ins({"fileroom-backup@plans.timer": its.SOON_BY_TIMER}):
            its.must("systemctl", "restart", "fileroom-backup@plans.timer")
            its.until(lambda: its.state("fileroom-backup@plans") == "activating", "the timer's backup begins")
            its.until(lambda: its.state("fileroom-backup@plans") != "activating", "the backup ends")
        self.tally.differs("they write yet", writers.are_at_it(), True)
        writers.end()  # (each of their sessions goes on: all that they sent is there once)
        self.tally.differs(f"it is told: {self.told()[-400:]}", RENEWED in self.told(), True)
        its.must("systemctl", "restart", "fileroom-backup@plans.timer")
        its.must("systemctl", "start", "fileroom-backup@plans")
        self.tally.differs(f"then {self.used()} numbers are used", self.used() < 1000, True)
