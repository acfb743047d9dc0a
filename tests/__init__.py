"""The tests that aren't in a crate. Each folder has tests of one kind, and the modules that several of them share are in this one.

    process/      run the built command as a process
    pages/        compare the pages with the sources, and run what they show
    sources/      read the sources
    reference/    modules, and no tests: checkers made of the tables of docs/FORMATS.md and docs/causes.tsv
    languages/    the packages for Go, Rust and Python
    c_interface/  the C library
    examples/     follow the pages of examples/, and try to deceive the loaders there
    objects/      compare canonical object files with what libbpf, cilium/ebpf, the kernel and other tools say of the originals, also of
                  files that hypothesis changes with knowledge of ELF and BTF; and what bpfcanon-review shows of them
    released/     make a release, and use its files from outside the tree
"""

import pathlib

TOP = pathlib.Path(__file__).resolve().parent.parent
