#!/usr/bin/env python3
"""Writes the man pages of vault, of its commands and of what it tells to docs/man/.

Usage: scripts/man.py [--check]

They are made of what the program's help says: its texts (help.rt of repo_prog), the words of each command (words.rt, errands.rt,
choosing.rt) and what these mean (meanings.rt); what the program tells stands in the tables of docs/MANUAL.md. So are the
completions for fish and zsh in examples/completion/ made of the help. With --check
nothing is written: it prints a line for each file that isn't as it would be written, for each word without a text, and for each
command whose options examples/completion/vault.bash doesn't have. Exit status 1 where it printed something.
"""
import re
import sys
from pathlib import Path

ROOT = Path(__file__).resolve().parents[1]
SOURCES = [(ROOT / "crates/repo_prog/src" / name).read_text() for name in ("words.rt", "errands.rt", "choosing.rt")]
HELP = (ROOT / "crates/repo_prog/src/help.rt").read_text()
MEANINGS = dict(re.findall(r'^pub const (\w+): &str =\s+"([^"]*)";', (ROOT / "crates/repo_prog/src/meanings.rt").read_text(), re.M))
MANUAL = (ROOT / "docs/MANUAL.md").read_text()
PAGES, COMPLETIONS = ROOT / "docs/man", ROOT / "examples/completion"
BASH = COMPLETIONS / "vault.bash"

# What stands in a store's folder, for the pages of the commands that have one.
FILES = {
    "config": "The store's instance, its version, and the numbers by which files are cut and packed.",
    "ledger": "Which locks are live, and which tokens were given.",
    "lock": "Held by the program that makes or serves the store.",
    "data, index, snapshots": "The packs, the indexes and the snapshots, each under its name.",
    "tmp": "What is being written; what a write that was cut off left there is removed.",
}


class Word:
    """A word of a command: one that stands at its place, or an option."""

    def __init__(self, text):
        self.name = re.search(r'\(alloc, "([\w-]+)"', text).group(1)
        default = re.search(r'number\(alloc, "[\w-]+", "(\d+)"', text)
        value = re.search(r'\.value_name\("(\w+)"\)', text)
        self.value = value.group(1) if value else "N" if default else ""
        self.default = default.group(1) if default else ""
        self.option = bool(default) or ".long(" in text or "flag(" in text
        self.many = ".num_args(0..)" in text
        meant = re.search(r'\w+\(alloc, "[\w-]+",(?: "\d+",)? ([A-Z_]+)\)|\.help\(([A-Z_]+)\)', text)
        self.text = MEANINGS.get(meant.group(1) or meant.group(2), "") if meant else ""
        self.name = "--" * self.option + self.name

    def is_folder(self):
        return self.name in ("DIR", "PATH")

    def shown(self):
        name = bold(self.name) if self.option else italic(self.name)
        return name + (" " + italic(self.value) if self.value else "")

    def in_synopsis(self):
        return f"[{self.shown()}{'..' * self.many}]" if self.option or self.many else self.shown()


def within(text, start):
    """What stands between the parenthesis at `start` and the one that closes it."""
    depth = 0
    for end in range(start, len(text)):
        depth += {"(": 1, ")": -1}.get(text[end], 0)
        if depth == 0:
            return text[start + 1:end]
    raise ValueError(text[start:])


class Function:
    """A function of the sources: its values by name, the words that it adds, and the commands that it makes."""

    def __init__(self, name, body, makers):
        self.name, self.body, self.makers = name, body, makers
        self.values = dict(re.findall(r"let (\w+) = (.*?);", body))
        added = [within(body, at.end() - 1).strip() for at in re.finditer(r"\.arg\(", body)]
        added += [within(body, at.end() - 1).split(",", 1)[1].strip() for at in re.finditer(r"with_word\(", body)]
        self.words = [Word(self.value_of(re.sub(r"^Ok\((.*)\)$", r"\1", text.rstrip("?")))) for text in added]

    def value_of(self, text):
        """A value by its name, or the text itself; of a word that another function makes, what stands in that one."""
        made = re.fullmatch(r"(\w+)\(alloc(.*)\)", text)
        body = self.makers.get(made.group(1)) if made else None
        wanted = re.findall(r"(\w+): &'a str", body or "")
        given = re.findall(r'"[^"]*"|[A-Z_]+', made.group(2)) if made else []
        if body and made.group(1) != "number":
            return re.sub(r"\b\w+\b(?!: )", lambda it: dict(zip(wanted, given)).get(it.group(), it.group()), body)
        return self.values.get(text, text)

    def commands(self):
        """Name, short text and name of the long text of each command that it makes."""
        for name, about, text in re.findall(r'errand_words\( ?alloc, "(\w+)", ("[^"]*"|\w+), (\w+),? ?\)', self.body):
            yield name, self.value_of(about).strip('"'), text
        for name in re.findall(r'Command::new\(alloc, "(\w+)"\)', self.body):
            about, text = re.search(r'\.about\(("[^"]*"|\w+)\)', self.body), re.search(r"\.after_help\((\w+)\)", self.body)
            yield name, self.value_of(about.group(1)).strip('"'), text.group(1) if text else ""


def functions():
    """The functions of the sources, but for the one that adds a word to a command."""
    bodies = {name: re.sub(r"\s+", " ", body).replace(" .", ".") for source in SOURCES
              for name, body in re.findall(r"^(?:pub )?fn (\w+)(.*?)^\}", source, re.M | re.S)}
    makers = {name: body for name, body in bodies.items() if re.search(r"-> Result<Arg<", body)}
    for name, body in bodies.items():
        if name != "with_word":
            yield Function(name, body, makers)


def read_commands():
    """Of each command its short text, its long one and its words; the program itself is `vault`."""
    made, texts = {}, help_texts()
    found = list(functions())
    adders = {function.name: function.words for function in found if function.words and not list(function.commands())}
    for function in found:
        for name, about, text in function.commands():
            first = adders["errand_words"] if "errand_words(" in function.body else []
            others = [word for adder in adders if adder != "errand_words" and adder + "(" in function.body for word in adders[adder]]
            made[name] = (about, text, first + function.words + others)
    return {name: (about, texts.get(text, ""), words) for name, (about, text, words) in
            sorted(made.items(), key=lambda item: [*texts, ""].index(item[1][1]))}


def help_texts():
    """The long texts by their names."""
    return {name: re.sub(r'\\(["\\])', r"\1", text.removeprefix("\\\n"))
            for name, text in re.findall(r'^pub const (\w+): &str = "((?:[^"\\]|\\.)*)";', HELP, re.M | re.S)}


def plain(text):
    """A text as it stands, for roff."""
    return text.replace("\\", "\\e").replace("-", "\\-").replace("'", "\\(aq")


def prose(text):
    """A line of prose, in which names stand between backticks."""
    return "\\&" * text.startswith((".", "'")) + re.sub(r"`([^`]*)`", r"\\fB\1\\fR", plain(text))


def bold(text):
    return f"\\fB{plain(text)}\\fR"


def italic(text):
    return f"\\fI{plain(text)}\\fR"


def item(head, text):
    return [".TP", head, prose(text)]


def block(text):
    """Paragraphs; lines that begin with spaces stand as they are."""
    lines, kept = [], False
    for line in text.splitlines():
        if line.startswith("  ") != kept:
            kept = not kept
            lines += [".PP", ".nf", ".RS"] if kept else [".RE", ".fi", ".PP"]
        lines.append(plain(line[2:]) if kept else prose(line) if line else ".PP")
    return lines + ([".RE", ".fi"] if kept else [])


def statuses(text):
    return [part for number, meaning in re.findall(r"^  (\d)  (.*)$", text, re.M) for part in item(bold(number), meaning)]


def meaning(word):
    return word.text + "." * bool(word.text) + (f" Without it {word.default}." if word.default != "" else "")


def page(name, about, *sections, number=1):
    title = f'.TH {name.upper()} {number} "" "vault {version()}" "Jibrekt"'
    lines = [title, ".SH NAME", f"{plain(name)} \\- {plain(about[0].lower() + about[1:])}"]
    for heading, body in sections:
        lines += [f'.SH "{heading}"', *body] if body else []
    return "\n".join(lines) + "\n"


# Where the manual is.
MANUALS = "docs/MANUAL.md of the sources (/usr/share/doc/jibrekt/MANUAL.md of the package)"

# What somebody has to know who has a page alone.
KEPT = "Names and bytes of files and folders are kept: no owners, no modes, no times, no links."
OPEN = "There are no passwords, and nothing is encrypted: who reaches the port can read and delete all."
NOTES = {"backup": KEPT, "restore": KEPT, "serve": OPEN}


def command_page(name, about, text, words):
    parts = re.split(r"(?:^|\n\n)(Example|Exit status):\n", text)
    parts = {"Text": parts[0], **dict(zip(parts[1::2], parts[2::2]))}
    synopsis = " ".join([bold(f"vault {name}"), *(word.in_synopsis() for word in words)])
    given = [part for word in words for part in item(word.shown(), meaning(word))]
    return page(f"vault-{name}", about, ("SYNOPSIS", [synopsis]), ("DESCRIPTION", [prose(about + "."), *block("\n" * bool(parts["Text"]) + parts["Text"])]),
                ("ARGUMENTS", given), ("EXAMPLES", block(parts["Example"])), ("EXIT STATUS", statuses(parts["Exit status"])),
                ("FILES", [part for at, text in FILES.items() for part in item(bold(at), text)] if name in ("init", "serve") else []),
                ("NOTES", [prose(NOTES[name])] if name in NOTES else []),
                ("SEE ALSO", [f"{bold('vault')}(1), {bold('vault-texts')}(7), and {MANUALS}."]))


def table(head):
    """The rows of a table of the manual, by the line of its head."""
    lines = MANUAL[MANUAL.index(head):].splitlines()
    rows = [line for line in lines[:next(at for at, line in enumerate([*lines, ""]) if not line.startswith("|"))]][2:]
    return [[re.sub(r"\[([^]]*)\]\([^)]*\)", r"\1", cell.strip()) for cell in row.strip("|").split(" | ")] for row in rows]


def sentences(*parts):
    """Each of these as a sentence of its own, where it says something."""
    return " ".join(text[0].upper() + text[1:].rstrip(".") + "." for text in (part.strip(" |") for part in parts) if text)


def texts_page():
    """What the program tells, what it means, and what to do."""
    about = "What vault tells, what it means, and what to do"
    told = [part for commands, text, status, means, deed in table("| Command | Text | Status |")
            for part in item(prose(text), sentences(f"({commands}; status {status}) {means}", deed))]
    codes = [part for code, means, deed in table("| C | The store says |") for part in item(bold(f"refused {code}"), sentences(means, deed))]
    said = [prose("The texts that go to standard error, with the commands that tell them, and their exit statuses. `client` is each command "
                  "that goes to a server, `job` each of these but `locks`, `refresh` and `unlock`.")]
    return page("vault-texts", about, ("DESCRIPTION", said), ("TEXTS", told), ("REASONS OF A REFUSAL", codes),
                ("SEE ALSO", [bold("vault") + f"(1), and {MANUALS}."]), number=7)


def program_page(about, commands):
    listed = [part for name, (short, _, _) in commands.items() for part in item(bold(f"vault-{name}") + "(1)", short + ".")]
    synopsis = [bold("vault") + " " + italic("COMMAND") + " ..", ".br", bold("vault") + " " + italic("COMMAND") + " " + bold("--help"),
                ".br", bold("vault --version")]
    said = [prose(about + ". Results go to standard output, one line each, and what went wrong to standard error.")]
    return page("vault", about, ("SYNOPSIS", synopsis), ("DESCRIPTION", said), ("COMMANDS", listed), ("NOTES", [prose(f"{KEPT} {OPEN}")]),
                ("SEE ALSO", [bold("vault-texts") + f"(7), and {MANUALS}, which goes by tasks."]))


def version():
    return re.search(r'const VERSION: &str = "([\d.]+)"', SOURCES[0]).group(1)


def pages(about, commands):
    """The pages of the program, which is about this, and of its commands."""
    made = {f"vault-{name}.1": command_page(name, *it) for name, it in commands.items()}
    return {"vault.1": program_page(about, commands), "vault-texts.7": texts_page()} | made


MADE_BY = "made by scripts/man.py of what the program's help says"


def quoted(text):
    """A text between single quotes, for a shell."""
    return "'" + text.replace("'", "'\\''") + "'"


def fish(commands):
    """The completion for fish."""
    lines = [f"# Completion of vault's words in fish, {MADE_BY}.", "#",
             "# Usage: put a copy into ~/.config/fish/completions, or source it.", "complete -c vault -f"]
    for name, (about, _, words) in commands.items():
        lines.append(f"complete -c vault -n __fish_use_subcommand -a {name} -d {quoted(about)}")
        inside = f"complete -c vault -n '__fish_seen_subcommand_from {name}'"
        for word in words:
            if word.option:
                lines.append(f"{inside} -l {word.name[2:]}{' -x' * bool(word.value)} -d {quoted(word.text)}")
            elif word.is_folder():
                lines.append(f"{inside} -a '(__fish_complete_directories)'")
    return "\n".join(lines) + "\n"


def zsh_word(place, word):
    """A word as `_arguments` of zsh wants it: an option, or what stands at a place."""
    text = re.sub(r"([\[\]:])", r"\\\1", word.text)
    if word.option:
        return quoted(f"{word.name}{'=' * bool(word.value)}[{text}]" + f":{word.value}:" * bool(word.value))
    return quoted(f"{'*' if word.many else place}:{word.name}:" + "_files -/" * word.is_folder())


def zsh(commands):
    """The completion for zsh."""
    lines = ["#compdef vault", f"# Completion of vault's words in zsh, {MADE_BY}.", "#",
             "# Usage: put a copy named _vault into a folder of $fpath, before compinit.", "local -a commands", "commands=("]
    lines += [f"    {quoted(name + ':' + about.replace(':', chr(92) + ':'))}" for name, (about, _, _) in commands.items()]
    lines += [")", "if (( CURRENT == 2 )); then", "    _describe command commands", "    return", "fi", "local command=$words[2]",
              "shift words", "(( CURRENT-- ))", "case $command in"]
    for name, (_, _, words) in commands.items():
        places = [word for word in words if not word.option]
        given = [zsh_word(places.index(word) + 1 if word in places else 0, word) for word in words]
        lines.append(f"    {name}) _arguments {' '.join([*given, quoted('--help[Print help]')])} ;;")
    return "\n".join([*lines, "esac"]) + "\n"


def complaints(commands, made):
    """What doesn't agree, a line each."""
    there = {path: path.read_text() for path in [*PAGES.iterdir(), *COMPLETIONS.iterdir()] if path != BASH}
    for path in sorted({*there, *made}):
        if there.get(path) != made.get(path):
            yield f"{path.relative_to(ROOT)} isn't as scripts/man.py would write it"
    completed = dict(re.findall(r'^ +([\w-]+)\) options="([^"]*)"', BASH.read_text(), re.M))
    for name, (_, _, words) in commands.items():
        options = " ".join(word.name for word in words if word.option)
        if completed.pop(name, None) != options:
            yield f'{BASH.relative_to(ROOT)}: {name}) options="{options}"'
    yield from (f"{BASH.relative_to(ROOT)}: {name} is no command" for name in completed)


def main():
    commands = read_commands()
    about = commands.pop("vault")[0]
    made = {PAGES / name: text for name, text in pages(about, commands).items()}
    made |= {COMPLETIONS / "vault.fish": fish(commands), COMPLETIONS / "_vault": zsh(commands)}
    wordless = [f"scripts/man.py has no text for {word.name} of {name}" for name, (_, _, words) in commands.items()
                for word in words if not word.text]
    if "--check" not in sys.argv[1:]:
        PAGES.mkdir(exist_ok=True)
        for path in PAGES.iterdir():
            path.unlink()
        for path, text in made.items():
            path.write_text(text)
    told = [*wordless, *complaints(commands, made)]
    print(*told, sep="\n", end="\n" * bool(told))
    return 1 if told else 0


if __name__ == "__main__":
    sys.exit(main())
