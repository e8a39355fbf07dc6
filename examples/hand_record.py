#!/usr/bin/env python3
"""Turns a file of PBN with results, as `ddserve pbn` writes it, into a page of hand records for a browser or a printer.

    ddserve pbn < record.pbn | python3 examples/hand_record.py > record.html

It is `python3 -m ddserve record`, by the package in `python/`. Nothing of this program is proved.
"""

import os
import sys

sys.path.insert(0, os.path.join(os.path.dirname(os.path.abspath(__file__)), "..", "python"))

from ddserve.__main__ import main

if __name__ == "__main__":
    sys.exit(main(["record", *sys.argv[1:]]))
