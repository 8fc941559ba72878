"""The commands that the units for systemd start, as systemd makes them of their lines."""
import re
import shlex

from trying import ROOT

UNITS = ROOT / "examples/systemd"


def commands_of(unit, host="", **given):
    """The commands of vault that a unit starts, each with its words. A variable's word is the one that is given here, or else the one
    that the unit has for it; `%H` is the host's name."""
    text = (UNITS / unit).read_text()
    values = dict(re.findall(r"^Environment=(\w+)=(.*)$", text, re.M)) | {name: str(value) for name, value in given.items()}
    for line in re.findall(r"^ExecStart=(.*)$", text, re.M):
        line = re.sub(r"\$(\w+)", lambda name: values.get(name[1], name[0]), line).replace("%H", shlex.quote(host) if host else "%H")
        words = [values.get(word[2:-1], word) if word.startswith("${") else word for word in shlex.split(line)]
        if words[0].endswith("/vault"):
            yield words[1:]
