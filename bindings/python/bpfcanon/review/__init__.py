"""The command bpfcanon-review: what is in accepted BPF object files, as text, and what differs between two.

`bpfcanon.objects.canon` says which files are accepted, and pyelftools reads the canonical bytes. docs/OBJECTS.md says what these are.
"""
