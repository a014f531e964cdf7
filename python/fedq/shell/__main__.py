"""Starts fedq-shell: `python3 .../fedq/shell/__main__.py HOME WORDS`, HOME being the folder of the launcher. This file is written for any
python3, so that an old one says which is needed."""
import os
import sys

if sys.version_info < (3, 8):
    sys.exit("fedq-shell: python3 3.8 or later is needed, and this is %d.%d: ./fedq run answers without it, as docs/PROTOCOL.md says"
             % sys.version_info[:2])

if __name__ == "__main__":
    sys.path.insert(0, os.path.dirname(os.path.dirname(os.path.dirname(os.path.abspath(__file__)))))
    from fedq.shell.start import main

    sys.exit(main(sys.argv[1], sys.argv[2:]))
