"""Refusals: what a room or the front says (docs/CODES.md), as WebDAV says it (RFC 4918)."""
from room_client.faults import Fault, Held, LocalFault, NotWhole, OtherVersion, Refused, SessionLost

LATER = "5"  # seconds
STATUS = {"NOENT": 404, "NOTDIR": 404, "ISDIR": 405, "EXIST": 405, "ACCESS": 403, "NOTEMPTY": 409, "INVAL": 403,
          "ATTRNOTSUPP": 403, "FBIG": 413, "TOO_DEEP": 403, "FOLDER_FULL": 507, "ROOM_FULL": 507, "UNKNOWN_USER": 403,
          "BAD_REQUEST": 403, "BAD_ROUTE": 404}
OF_FRONT = {401: 401, 403: 503, 404: 404, 413: 413}
REASONS = {200: "OK", 201: "Created", 204: "No Content", 206: "Partial Content", 207: "Multi-Status",
           304: "Not Modified", 400: "Bad Request", 401: "Unauthorized", 403: "Forbidden", 404: "Not Found",
           405: "Method Not Allowed", 409: "Conflict", 411: "Length Required", 412: "Precondition Failed",
           413: "Payload Too Large", 415: "Unsupported Media Type", 416: "Range Not Satisfiable",
           423: "Locked", 424: "Failed Dependency", 429: "Too Many Requests", 500: "Internal Server Error",
           501: "Not Implemented", 502: "Bad Gateway", 503: "Service Unavailable", 507: "Insufficient Storage"}


class Answered(Exception):
    """A request that is refused here, with a status, why, and what RFC 4918 calls it, of what is at an address."""

    def __init__(self, status: int, why: str, condition: str | None = None, where: str | None = None):
        super().__init__(why)
        self.status, self.why, self.condition, self.where = status, why, condition, where


class Busy(Answered):
    def __init__(self, why: str):
        super().__init__(503, why)


class NotThere(Answered):
    def __init__(self, path: str):
        super().__init__(404, f"nothing is at {path}")


def is_refused(fault: Refused, *names: str) -> bool:
    return fault.reply.get("error") in names


def is_sure(fault: BaseException) -> bool:
    """Whether the room refused it, and so did nothing: with a session that is lost, nobody knows."""
    return isinstance(fault, Refused) and not isinstance(fault, SessionLost)


def as_answered(fault: Fault, front_status: int = 0) -> Answered:
    """What is answered where a visit ends with a fault."""
    if isinstance(fault, Held):
        return Answered(429, str(fault).partition(";")[0])
    if front_status:
        return Answered(OF_FRONT.get(front_status, 502), str(fault).partition(";")[0])
    if isinstance(fault, SessionLost):
        return Busy("the room was made anew: try again")
    if isinstance(fault, Refused):
        return Answered(STATUS.get(fault.reply.get("error"), 500), str(fault))
    if isinstance(fault, OtherVersion):
        return Answered(412, str(fault))
    if isinstance(fault, (NotWhole, LocalFault)):
        return Answered(500, str(fault))
    if fault.status == 1:  # (a trash that others could read)
        return Answered(403, str(fault))
    return Busy(str(fault).partition(";")[0])


def making(fault: Refused) -> Exception:
    """Where something is made, a folder above that is not there is a conflict."""
    return Answered(409, str(fault)) if is_refused(fault, "NOENT", "NOTDIR") else fault
