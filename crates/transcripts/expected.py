#!/usr/bin/env python3
"""Prints, for every test session in order, a line with its name and its transcript by the plain store."""

import sys

from plain_store import transcript
from sessions import SESSIONS, joined

for name, pieces in SESSIONS:
    sys.stdout.buffer.write(b"== " + name.encode() + b"\n" + transcript(joined(pieces)))
