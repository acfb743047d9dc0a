"""The commands of the program and their options, as crates/bpfcanon/src/verb.rt declares them."""

import re

from tests import TOP

VERB = (TOP / "crates" / "bpfcanon" / "src" / "verb.rt").read_text()


def arms(call, kind):
    """The arms of a call of an enum: its variants, each with its string."""
    pattern = rf"^impl {kind} \{{.*?^    pub fn {call}\b.*?\{{\n        match self \{{\n(.*?)^        \}}"
    body = re.search(pattern, VERB, re.MULTILINE | re.DOTALL)[1]
    found = {}
    for variants, text in re.findall(r"^ *((?:\w+::\w+(?: \| )?)+) => (.*?),?$", body, re.MULTILINE):
        found |= dict.fromkeys(re.findall(r"::(\w+)", variants), text)
    return found


NAMES = {variant: name.strip('"') for variant, name in arms("name", "Verb").items()}
SETTINGS = {variant: name.strip('"') for variant, name in arms("name", "Setting").items()}
# Each command, in the order in which they are declared, with its options.
OPTIONS = {NAMES[verb]: [f"--{SETTINGS[it]}" for it in re.findall(r"Setting::(\w+)", text)] for verb, text in arms("takes", "Verb").items()}
COMMANDS = list(NAMES.values())
ALL_OPTIONS = [f"--{name}" for name in SETTINGS.values()]
