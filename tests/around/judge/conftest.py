"""Tests of the clients by the rule of docs/SLOTS.md (A client that acts once)."""
import os
import sys

sys.path.insert(0, os.path.join(os.path.dirname(os.path.abspath(__file__)), "..", "..", "..", "client"))
