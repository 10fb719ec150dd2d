"""XML: what callers send, which is read without entities and within bounds, and what they are answered."""
import itertools
import xml.etree.ElementTree as plain
from collections.abc import Iterable
from xml.sax.saxutils import escape

from defusedxml.ElementTree import DefusedXMLParser
from defusedxml.common import DefusedXmlException

from .faults import Answered, REASONS
from .spool import Sent, joined

MOST_BYTES = 16384  # of a body of XML
DEEPEST, MOST_ELEMENTS = 20, 1000
MOST_LETTERS = 16384  # of the names of all elements and attributes, each with its namespace, as an answer has them
MOST_ASKED = 200  # properties, each of which is answered for each thing in a folder
MOST_OWNER = 512  # letters of what is kept of a lock's owner
HEAD = '<?xml version="1.0" encoding="utf-8"?>\n'
DAV = "{DAV:}"
NO_XML = dict.fromkeys([*range(32), 0xfffe, 0xffff])
del NO_XML[9], NO_XML[10], NO_XML[13]


class Bounded(plain.TreeBuilder):
    """Refuses what is deep, or many: nobody's file manager sends that."""

    depth = count = letters = 0

    def start(self, tag, attributes):
        self.depth, self.count = self.depth + 1, self.count + 1
        self.letters += sum(len(text(it)) for it in (tag, *attributes))
        if self.depth > DEEPEST or self.count > MOST_ELEMENTS or self.letters > MOST_LETTERS:
            raise Answered(400, "the XML is too deep, or has too many elements")
        return super().start(tag, attributes)

    def end(self, tag):
        self.depth -= 1
        return super().end(tag)


def parsed(body: bytes) -> plain.Element:
    if len(body) > MOST_BYTES:
        raise Answered(413, "that is too much XML")
    parser = DefusedXMLParser(target=Bounded(), forbid_dtd=True, forbid_entities=True, forbid_external=True)
    try:
        parser.feed(body)
        return parser.close()
    except (plain.ParseError, DefusedXmlException, ValueError, LookupError) as fault:
        raise Answered(400, f"the body is no XML that is taken here: {type(fault).__name__}") from None


def named(tag: str) -> tuple[str, str]:
    """The namespace and the name of an element."""
    space, _, name = tag.rpartition("}")
    return space.removeprefix("{"), name


def text(value: str) -> str:
    return escape(value.translate(NO_XML), {'"': "&quot;"})


def element(tag: str, inside: str = "") -> str:
    """One of any namespace. (The one of DAV has its prefix at the top.)"""
    space, name = named(tag)
    if space == "DAV:":
        return f"<D:{name}>{inside}</D:{name}>" if inside else f"<D:{name}/>"
    if not space:
        return f'<{name} xmlns="">{inside}</{name}>'
    return f'<x:{name} xmlns:x="{text(space)}">{inside}</x:{name}>'


def status_line(status: int) -> str:
    return f"<D:status>HTTP/1.1 {status} {REASONS[status]}</D:status>"


def propstat(status: int, inside: str) -> str:
    return f"<D:propstat><D:prop>{inside}</D:prop>{status_line(status)}</D:propstat>"


def response(where: str, inside: str) -> str:
    return f"<D:response><D:href>{text(where)}</D:href>{inside}</D:response>\n"


def multistatus(responses: Iterable[str]) -> bytes | Sent:
    top = f'{HEAD}<D:multistatus xmlns:D="DAV:">\n'
    return joined(it.encode() for it in itertools.chain([top], responses, ["</D:multistatus>\n"]))


def prop(inside: str) -> bytes:
    return f'{HEAD}<D:prop xmlns:D="DAV:">{inside}</D:prop>\n'.encode()


def error(condition: str, why: str, where: str | None = None) -> bytes:
    """A refusal with a name of RFC 4918, of what is at an address, and why."""
    return f'{HEAD}<D:error xmlns:D="DAV:">{of_what(condition, where)}{in_words(why)}</D:error>\n'.encode()


def refused(status: int, condition: str, why: str, where: str) -> str:
    """The same inside a response."""
    return f"{status_line(status)}<D:error>{of_what(condition, where)}</D:error>{in_words(why)}"


def of_what(condition: str, where: str | None) -> str:
    return element(DAV + condition, f"<D:href>{text(where)}</D:href>" if where else "")


def in_words(why: str) -> str:
    return f"<D:responsedescription>{text(why)}</D:responsedescription>"


# What is asked

def propfind_of(body: bytes) -> list[str] | str:
    """The names of the properties that are wanted, or `allprop` or `propname`."""
    if not body.strip():
        return "allprop"
    top = parsed(body)
    if top.tag != DAV + "propfind":
        raise Answered(400, "the body is no propfind")
    kinds = [it for it in top if it.tag in (DAV + "prop", DAV + "allprop", DAV + "propname")]
    if len(kinds) != 1:
        raise Answered(400, "a propfind has one of prop, allprop and propname")
    kind = kinds[0]
    return few([it.tag for it in kind]) if kind.tag == DAV + "prop" else named(kind.tag)[1]


def few(names: list[str]) -> list[str]:
    if len(names) > MOST_ASKED:
        raise Answered(400, f"at most {MOST_ASKED} properties are asked for at once")
    return names


def proppatch_of(body: bytes) -> list[str]:
    """The names of the properties that are to be set or removed."""
    top = parsed(body)
    if top.tag != DAV + "propertyupdate":
        raise Answered(400, "the body is no propertyupdate")
    return few([it.tag for step in top if step.tag in (DAV + "set", DAV + "remove") for prop in step for it in prop])


def lockinfo_of(body: bytes) -> tuple[bool, str]:
    """Whether the lock is shared, and its owner as XML: a text, or one address."""
    top = parsed(body)
    if top.tag != DAV + "lockinfo" or top.find(f"{DAV}locktype/{DAV}write") is None:
        raise Answered(400, "the body is no lockinfo for writing")
    is_shared = top.find(f"{DAV}lockscope/{DAV}shared") is not None
    if not is_shared and top.find(f"{DAV}lockscope/{DAV}exclusive") is None:
        raise Answered(400, "a lock is shared or exclusive")
    owner = top.find(DAV + "owner")
    if owner is None:
        return is_shared, ""
    address = owner.find(DAV + "href")
    words = text(("".join((owner if address is None else address).itertext())).strip()[:MOST_OWNER])
    return is_shared, words if address is None else f"<D:href>{words}</D:href>"
