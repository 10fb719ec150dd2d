"""The access report of `fileroom report DB ROSTER access`, as a table for spreadsheets and as a page."""
import csv
import html
import io
import re
from dataclasses import dataclass

from .faults import BadWords
from .manifest import NAME
from .words import ALL, FILE, FOLDER, RIGHTS, SETS, mask_words, right_words, shown

LINE = re.compile(rb"([0-9a-f]{8}) ([A-Za-z0-9._-][A-Za-z0-9._ -]{31}) (/.*)", re.DOTALL)
NOTE = "Each object by its own list: that each folder above lets somebody pass is not looked at."


@dataclass(frozen=True)
class Right:
    path: str
    user: str
    mask: int


def read_report(text: bytes) -> list[Right]:
    """The lines of a report. A file that ends in the middle of a line is refused: it is not whole."""
    lines = text.split(b"\n")
    if lines.pop() != b"":
        raise BadWords("the report ends in the middle of a line: write it again")
    return [read_line(number, line) for number, line in enumerate(lines, 1)]


def read_line(number: int, line: bytes) -> Right:
    found = LINE.fullmatch(line)
    if found and not int(found[1], 16) & ~ALL:
        try:
            return Right(found[3].decode(), found[2].decode().rstrip(), int(found[1], 16))
        except UnicodeDecodeError:
            pass
    raise BadWords(f"line {number} is none of an access report: give what fileroom report DB ROSTER access wrote")


def masks_of(rights: list[Right]) -> dict[str, dict[str, int]]:
    """Of each path, what each user has."""
    masks: dict[str, dict[str, int]] = {}
    for it in rights:
        masks.setdefault(it.path, {})[it.user] = it.mask
    return masks


# what a large file is made of
OF_FILE = re.compile(r"(/.+)/\.room-(?:file|(?:pieces|writing|gone)-[0-9a-f]{16}(?:/[^/]+)?)")


def whole_files(rights: list[Right]) -> list[Right]:
    """A large file as one object: of what it is made of, only what has other rights than the file is left. With other
    things in it, it is a folder."""
    masks = masks_of(rights)
    found = {it: OF_FILE.fullmatch(it) for it in masks}
    folders = {it.rpartition("/")[0] for it, its in found.items() if not its}
    parts = {path for path, its in found.items() if its and its[1] not in folders and f"{its[1]}/{NAME}" in masks
             and masks.get(its[1]) == masks[path]}
    return [it for it in rights if it.path not in parts]


def both_words(mask: int) -> str:
    """The kind of an object is not told by the report."""
    return mask_words(mask, FILE, FOLDER)


def as_csv(rights: list[Right]) -> str:
    """A row for each object and user, with a column for each right."""
    file = io.StringIO()
    table = csv.writer(file, quoting=csv.QUOTE_ALL)  # (a program that parts cells at ; is to find none in a path)
    table.writerow(["path", "user", "rights", "mask", *("/".join(right_words(it[0], FILE, FOLDER)) for it in RIGHTS)])
    for it in rights:
        each = ["yes" if it.mask & bit else "" for bit, *_ in RIGHTS]
        table.writerow([shown(it.path), it.user, both_words(it.mask), f"{it.mask:08x}", *each])
    return file.getvalue()


LEVELS = [  # the first whose rights are all there: its name, what it is said to be, colour
    ("all", SETS["all"], "each right", "#b7d7f5"),
    ("change", SETS["change"], "view, edit and remove", "#bfe8c5"),
    ("edit", SETS["edit"], "view, write, append and add", "#e2f2b8"),
    ("view", SETS["view"], "see it and what is in it", "#fbf3c4"),
    ("some", 0, "the rights named", "#f6dcc0"),
]
NONE = ("none", 0, "no right", "#ffffff")
STYLE = """
body { font: 14px/1.4 sans-serif; margin: 1.5em; color: #111 }
table { border-collapse: collapse }
th, td { border: 1px solid #999; padding: .2em .5em; text-align: left; vertical-align: top }
thead th { position: sticky; top: 0; background: #eee }
th.path { font-weight: normal; white-space: pre; background: #fafafa }
small { color: #333 }
"""


def level(mask: int) -> tuple[str, int, str, str]:
    return next((it for it in LEVELS if mask and mask & it[1] == it[1]), NONE)


def cell(mask: int) -> str:
    """A level's name, and the rights in full where they are others than its own."""
    name, whole, *_ = level(mask)
    rest = html.escape(both_words(mask & ~whole).replace(",", ", ")) if mask != whole else ""
    words = f"<small>{rest}</small>" if name == "some" else name + f" + <small>{rest}</small>" * bool(rest)
    return f'<td class="{name}">{words}</td>'


def as_html(rights: list[Right]) -> str:
    """A page with a line for each object and a column for each user."""
    users = list(dict.fromkeys(it.user for it in rights))
    head = "".join(f'<th scope="col">{html.escape(it)}</th>' for it in users)
    rows = [
        f'<tr><th scope="row" class="path">{html.escape(shown(path))}</th>'
        + "".join(cell(of[user]) if user in of else "<td>?</td>" for user in users) + "</tr>"
        for path, of in masks_of(rights).items()
    ]
    colours = "".join(f"td.{name} {{ background: {colour} }}\n" for name, _, _, colour in [*LEVELS, NONE])
    legend = "".join(f'<td class="{name}">{name}: {says}</td>' for name, _, says, _ in [*LEVELS, NONE])
    return "\n".join([
        "<!DOCTYPE html>", '<html lang="en"><head><meta charset="utf-8"><title>Who may do what</title>',
        f"<style>{STYLE}{colours}</style></head><body>", "<h1>Who may do what</h1>",
        f"<table><caption>Colours</caption><tr>{legend}</tr></table>",
        f"<p>{NOTE} A right with two words has one on documents and one on folders.</p>",
        f'<table><thead><tr><th scope="col">object</th>{head}</tr></thead><tbody>', *rows,
        "</tbody></table></body></html>", ""])
