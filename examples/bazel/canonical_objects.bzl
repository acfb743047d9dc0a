"""A rule that writes canonical BPF object files."""

# The program writes one file, and all objects of a target are one action. The words are the program and, for each object, its file and
# where its canonical file goes.
_COMMAND = """
program=$1
shift
while [ $# -gt 0 ]; do
  "$program" canon -o "$2" "$1" || exit
  shift 2
done
"""

def _canonical_objects_impl(ctx):
    # Two objects may have the same name. The path of one from another repository begins with "../".
    outputs = [ctx.actions.declare_file(ctx.label.name + "/" + it.short_path.replace("../", "external/")) for it in ctx.files.srcs]
    words = ctx.actions.args()
    words.add(ctx.executable.program)
    for source, output in zip(ctx.files.srcs, outputs):
        words.add_all([source, output])
    ctx.actions.run_shell(
        command = _COMMAND,
        arguments = [words],
        inputs = ctx.files.srcs,
        outputs = outputs,
        tools = [ctx.executable.program],
        mnemonic = "CanonicalObjects",
        progress_message = "Writing %d canonical object files" % len(outputs),
    )
    return [DefaultInfo(files = depset(outputs))]

canonical_objects = rule(
    implementation = _canonical_objects_impl,
    doc = "Writes the canonical file of each object, with its path in the workspace, into a folder with the name of the target.",
    attrs = {
        "srcs": attr.label_list(allow_files = [".o"], mandatory = True, doc = "The object files."),
        "program": attr.label(
            default = "//:bpfcanon-object",
            allow_single_file = True,
            executable = True,
            cfg = "exec",
            doc = "bpfcanon-object, which is static: it needs nothing else on a remote machine.",
        ),
    },
)
