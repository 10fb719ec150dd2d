"""What an administrator does to rooms, users and front: `fileroom-admin`. Python's standard library, and the words that
the client has for rights."""
import os
import sys

HERE = os.path.dirname(os.path.realpath(__file__))
# (from where it was installed with this, or from the checkout)
sys.path.append(next(filter(os.path.isdir, (os.path.join(HERE, it, "client") for it in ("../..", "../../..")))))
