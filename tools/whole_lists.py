"""The whole list of each object of a room, from its rows: its own entries, then what its folder hands down.

An entry is (type, flag, mask, who), as in the table `entry`. docs/LISTS.md has the rules.
"""
FILE_INHERIT, DIRECTORY_INHERIT, NO_PROPAGATE, INHERIT_ONLY, GROUP, MARK = 1, 2, 4, 8, 0x40, 0x80
AUTO_INHERIT, PROTECTED = 1, 2


def flag_handed_down(flag, is_folder):
    """The flag of an entry as a child gets it, or None where it gets none."""
    to_files, to_folders = flag & FILE_INHERIT, flag & DIRECTORY_INHERIT
    kept = MARK | flag & GROUP
    if not is_folder:
        return kept if to_files else None
    if flag & NO_PROPAGATE:
        return kept if to_folders else None
    if to_folders:
        return kept | DIRECTORY_INHERIT | to_files
    return kept | INHERIT_ONLY | FILE_INHERIT if to_files else None


def with_inherited(own, aclflag, is_folder, above):
    """The list of an object in a folder with this list."""
    if aclflag & (AUTO_INHERIT | PROTECTED) != AUTO_INHERIT:
        return list(own)
    given = [(kind, flag_handed_down(flag, is_folder), mask, who) for kind, flag, mask, who in above]
    return [*own, *(entry for entry in given if entry[1] is not None)]


def own_part(entries):
    """The own entries of a whole list: those without the mark."""
    return [entry for entry in entries if not entry[1] & MARK]


def lists_from_scratch(nodes, stored):
    """Pairs of an object's path and number with its list, from the root down. `nodes` are (id, parent, name, kind,
    aclflag), `stored` has the stored entries of each number."""
    below = {}
    for node in sorted(nodes, key=lambda it: it[2]):
        below.setdefault(node[1], []).append(node)
    waiting = [("/", 1, own_part(stored.get(1, ())))]
    while waiting:
        path, number, entries = waiting.pop()
        yield path, number, entries
        for child, _, name, kind, aclflag in reversed(below.get(number, ())):
            whole = with_inherited(own_part(stored.get(child, ())), aclflag, kind == 1, entries)
            waiting.append((f"{path.rstrip('/')}/{name}", child, whole))
