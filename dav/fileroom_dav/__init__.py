"""The gateway by which file managers reach a room: WebDAV (RFC 4918, classes 1 and 2) before the room's own wire.

It hands each caller's own login on to the front with every request, and has no key, and no way to a room, of its own.
docs/DAV.md has how people use it, and what it cannot do.
"""
