"""python3 -m bpfcanon.review is the command bpfcanon-review."""

import sys

from .cli import main

if __name__ == "__main__":
    sys.exit(main())
