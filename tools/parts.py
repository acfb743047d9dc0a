"""What the tools share that write parts of files."""

import pathlib
import re
import sys

TOP = pathlib.Path(__file__).resolve().parent.parent
NAME = pathlib.Path(sys.argv[0]).name


def replaced(text, pattern, made):
    """Replaces what the pattern matches, which has to be in the file once."""
    text, count = re.subn(pattern, made, text, flags=re.MULTILINE)
    if count != 1:
        sys.exit(f"tools/{NAME}: {count} matches of {pattern}")
    return text


def write(usage, made):
    """Writes the files that change, given the path of each file and what it has to be; with --check only names them, with status 1."""
    if sys.argv[1:] not in ([], ["--check"]):
        sys.exit(usage)
    changed = {path: text for path, text in made if path.read_text() != text}
    for path, text in changed.items():
        if sys.argv[1:]:
            print(f"{path.relative_to(TOP)}: tools/{NAME} writes it otherwise")
        else:
            path.write_text(text)
    sys.exit(bool(changed and sys.argv[1:]))
