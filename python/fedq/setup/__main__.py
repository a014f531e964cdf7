"""Starts fedq-setup: `python3 .../fedq/setup/__main__.py WORDS`. This file is written for any python3, so that an old one says which is
needed."""
import os
import sys

if sys.version_info < (3, 8):
    sys.exit("fedq-setup: python3, 3.8 or later, is needed; docs/SOURCES.md has the statements to write by hand")

if __name__ == "__main__":
    sys.path.insert(0, os.path.dirname(os.path.dirname(os.path.dirname(os.path.abspath(__file__)))))
    from fedq.setup.words import start

    sys.exit(start(sys.argv[1:]))
