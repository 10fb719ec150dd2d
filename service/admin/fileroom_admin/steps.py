"""What changes where a room's users become those of a table."""


class Step:
    """From the users who are `there`, with their groups, to those of a table's rows; `names` are shown now. Who `stays`
    is as before, whatever the table has."""

    def __init__(self, there, rows, names, stays=()):
        self.there, self.rows, self.names, self.stays = there, rows, names, stays
        self.new = [it for it in rows if it not in there]
        self.gone = [it for it in there if it not in rows]
        self.groups = {user: groups for user, (groups, _) in rows.items() if {*there.get(user, [""])} != {*groups}}
        self.shown = {user: name for user, (_, name) in rows.items() if name not in (None, names.get(user, ""))}

    def but(self, stays):
        """The same, but these stay, who would go."""
        return Step(self.there, {**self.rows, **{it: (self.there[it], None) for it in stays}}, self.names, stays)

    def is_any(self):
        return bool(self.groups or self.gone or self.shown)

    def changed(self):
        return {**self.groups, **dict.fromkeys(self.gone)}

    def lines(self, room):
        for user, groups in self.groups.items():
            was = "comes" if user in self.new else f"was in {', '.join(self.there[user]) or 'no group'}"
            yield f"{room}: {user}, in {', '.join(groups) or 'no group'} ({was})"
        for user in self.gone:
            back = " ".join([room, user, *self.there[user]])
            yield f"{room}: {user} goes (back: fileroom-admin user add --again {back})"
