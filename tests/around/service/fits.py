"""Whether a password is that of the front's line below ROOT, told by the status: `fits.py USER PASSWORD`."""
import base64
import ctypes
import hashlib
import os
import sys

LIBCRYPT = ctypes.CDLL("libcrypt.so.1")
LIBCRYPT.crypt.restype = ctypes.c_char_p


def fits(root, user, word):
    with open(os.path.join(root, "etc/nginx/fileroom/users"), encoding="utf-8") as file:
        line = next(it for it in file if it.startswith(f"{user}:"))
    its_hash = line.rstrip("\n").partition(":")[2]
    if its_hash.startswith("{SSHA}"):
        both = base64.b64decode(its_hash.removeprefix("{SSHA}"))
        return hashlib.sha1(word.encode() + both[20:]).digest() == both[:20]
    return LIBCRYPT.crypt(word.encode(), its_hash.encode()).decode() == its_hash


if __name__ == "__main__":
    sys.exit(not fits(os.environ["ROOT"], *sys.argv[1:]))
