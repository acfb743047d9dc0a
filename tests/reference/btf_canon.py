"""Writes what btf-canon writes, by the reference: the canonical bytes of the BTF on standard input, or its first fault.

    python3 -m tests.reference.btf_canon < FILE

It shares no code with bpfcanon. Its time grows with the square of the number of names: 10,000 need a quarter of a minute.
"""

import sys

from tests.reference import btf_reference


def main():
    file = sys.stdin.buffer.read()
    fault = btf_reference.first_fault(file)
    if fault:
        sys.exit("fault {} {}".format(*fault))
    sys.stdout.buffer.write(btf_reference.canonical(file))


if __name__ == "__main__":
    main()
