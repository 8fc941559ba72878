"""What stands around the program: its help, man pages, completions, units for systemd, and the cases that are written by another one."""
import re
import shlex
import shutil
import subprocess
import sys

from program import told
from trying import ROOT, WAIT, holds, needs, same, trial
from units import UNITS, commands_of

COMPLETION = ROOT / "examples/completion/vault.bash"


def says_nothing(*command, seconds=WAIT):
    """A command that ends well, and prints nothing."""
    run = subprocess.run([str(word) for word in command], cwd=ROOT, capture_output=True, text=True, timeout=seconds, stdin=subprocess.DEVNULL)
    same((run.returncode, run.stdout + run.stderr), (0, ""), command[-1])


@trial
def man_pages_are_those_of_the_help():
    says_nothing(sys.executable, "-B", "scripts/man.py", "--check")


@trial
def pictures_are_those_of_the_pages():
    says_nothing(sys.executable, "-B", "scripts/diagrams.py", "--check")


@trial
def man_pages_say_what_the_program_says():
    """Each command has a page, with its options, its example and its exit statuses as the built program's help has them."""
    for command in re.findall(r"^  ([a-z]+)  ", told("--help"), re.M):
        if command == "help":
            continue
        page = plain((ROOT / f"docs/man/vault-{command}.1").read_text())
        given = told(command, "--help")
        for option in set(re.findall(r"--[a-z-]+", given)) - {"--help"}:
            holds(option in page, f"the page of {command} has no {option}")
        for line in re.findall(r"^  (?:\d  )?(\S.*)$", given.split("Example:")[1], re.M):
            holds(" ".join(line.replace("`", "").split()) in page, f"the page of {command} has no line {line!r}")


def plain(text):
    """A man page without its marks."""
    return " ".join(re.sub(r"\\f.|\\&", "", text).replace("\\(aq", "'").replace("\\-", "-").replace("\\e", "\\").split())


@trial
def help_says_what_each_word_means():
    """In the built program's help each word and each option of a command has a text beside it."""
    for command in set(re.findall(r"^  ([a-z]+)  ", told("--help"), re.M)) - {"help"}:
        given = told(command, "--help").split("Example:")[0]
        words = re.findall(r"^ +(<\S+>|\[\S+\]|--\S+(?: <\S+>)?) *(.*)$", given.partition("\n\n")[2], re.M)
        holds(words or command in ("frames", "play", "loop"), f"{command} has no words")
        for word, text in words:
            holds(len(text.split()) > 2, f"{command}: {word} has no text")


def literals(pattern, *crates):
    """What stands in the sources of these crates where the pattern has its group."""
    return {text for crate in crates for path in (ROOT / "crates" / crate / "src").glob("*.rt") for text in re.findall(pattern, path.read_text())}


@trial
def the_page_of_texts_has_each_text():
    """What the sources tell where a command fails, and how an outcome that is none of success is told."""
    page = plain((ROOT / "docs/man/vault-texts.7").read_text())
    texts = literals(r'failed(?:_by)?\((?:faults|&mut console\.faults), (?:&error, |&)"([^"]*)"\)', "repo_prog") | literals(r'End::\w+ => String::from_str\(alloc, "([^"]*)"\)', "repo_session")
    holds(len(texts) > 12, texts)
    for text in sorted(texts - {"abandoned"}):
        holds(text.rstrip("0123456789") in page, f"the page of texts has no {text!r}")
    for code in range(1, 15):
        holds(f"refused {code} " in page, f"the page of texts has no refusal {code}")


@trial
def completions_of_other_shells_are_read():
    needs("zsh")
    needs("fish")
    says_nothing("zsh", "-n", COMPLETION.with_name("_vault"))
    says_nothing("fish", "-n", COMPLETION.with_name("vault.fish"))


@trial
def cases_are_those_that_are_written():
    # All cases are played by the reference, which takes a processor for minutes, more of them where the machine has much else to do.
    says_nothing(sys.executable, "-B", "scripts/cases/write.py", "--check", seconds=6 * WAIT)


@trial
def definitions_have_their_lines():
    says_nothing(sys.executable, "-B", "scripts/definitions.py", "--check")


def completed(*words):
    """What the completion offers for the last of these words, as bash would ask it."""
    script = (f"source {shlex.quote(str(COMPLETION))}; COMP_WORDS=({' '.join(map(shlex.quote, words))}); COMP_CWORD={len(words) - 1}; "
              "_vault 2>/dev/null; printf '%s\\n' \"${COMPREPLY[@]}\"")
    run = subprocess.run(["bash", "-c", script], cwd=UNITS.parent, capture_output=True, text=True, timeout=WAIT)
    same((run.returncode, run.stderr), (0, ""), words)
    return sorted(run.stdout.split())


@trial
def the_completion_offers_each_word():
    """Each command of the program, the options of each, and folders where one is wanted."""
    says_nothing("bash", "-n", COMPLETION)
    commands = sorted(set(re.findall(r"^  ([a-z]+)  ", told("--help"), re.M)) - {"help"})
    same(completed("vault", ""), sorted([*commands, "--help", "--version"]))
    same(completed("vault", "ref"), ["refresh"])
    for command in commands:
        options = set(re.findall(r"--[a-z-]+", told(command, "--help").split("Example:")[0]))
        if command not in ("frames", "play", "loop"):
            same(completed("vault", command, "--"), sorted(options | {"--help"}), command)
    for words in (("vault", "init", ""), ("vault", "serve", ""), ("vault", "backup", "a", "h", ""), ("vault", "restore", "a", "n", "")):
        holds({"systemd", "completion"} <= set(completed(*words)), words)
    same(completed("vault", "snapshots", ""), [])


@trial
def units_start_commands_that_are_there():
    """Their words make commands: each option is in the help, and each command gets as many words as it wants."""
    found = [(unit.name, words) for unit in sorted(UNITS.glob("*.service")) for words in commands_of(unit.name)]
    same(sorted({words[0] for _, words in found}), ["backup", "check", "forget", "prune", "serve", "unlock"])
    for unit, words in found:
        given = told(words[0], "--help")
        for option in [word for word in words if word.startswith("--")]:
            holds(option in given, f"{unit}: {words[0]} has no {option}")
        wanted = re.findall(r"<(\w+)>", re.search(r"^Usage:.*$", given, re.M).group(0))
        plain_words = [word for at, word in enumerate(words[1:]) if not word.startswith("--") and not words[at].startswith("--")]
        same(len(plain_words), len(wanted), f"{unit}: {words}")
        text = [word.replace("127.0.0.1:7070", "127.0.0.1:1").replace("/var/lib/jibrekt/store", "/nowhere") for word in words]
        got = told(*text)
        same(got[:2], "1|", f"{unit}: {got}")


@trial
def units_are_whole():
    """Each has its parts, each timer its service, and what a unit names beside itself is there."""
    names = {it.name for it in UNITS.iterdir()}
    for unit in sorted(UNITS.glob("*.service")) + sorted(UNITS.glob("*.timer")):
        text = unit.read_text()
        for line in text.splitlines():
            holds(line == "" or line.startswith("#") or re.fullmatch(r"\[\w+\]|[A-Z]\w+=.*", line), f"{unit.name}: {line!r}")
        holds("[Unit]" in text and f"[{unit.suffix[1:].title()}]" in text, f"{unit.name} lacks a part")
        holds(unit.suffix != ".timer" or unit.with_suffix(".service").name in names, f"{unit.name} has no service")
        for page in re.findall(r"man:vault-(\w+)\(1\)", text):
            holds((ROOT / f"docs/man/vault-{page}.1").exists(), f"{unit.name}: there is no page of {page}")
        for other in re.findall(r"^After=(vault-\S+)$", text, re.M):
            holds(other in names, f"{unit.name}: there is no {other}")


# What some units have to say, each for a reason that its own lines give.
LINES = {
    "jibrekt-tunnel.conf": ("ClientAliveInterval 30", "ClientAliveCountMax 4"),
    "jibrekt-serve.service": ("StartLimitIntervalSec=0", "RestartSec=15", r"RequiresMountsFor=\S+"),
    "jibrekt-prune.service": (r"ExecStart=\S*vault check .*",),
}


@trial
def units_say_what_they_promise():
    """Clients that vanished are ended, a server that fails is started again without end and not before its disk is mounted, and a store is checked
    before it is pruned."""
    for name, lines in LINES.items():
        text = (UNITS / name).read_text()
        for line in lines:
            holds(re.search(rf"^\s*{line}$", text, re.M), f"{name} has no line {line}")
    commands = re.findall(r"^Exec\w+=\S*vault (\w+)", (UNITS / "jibrekt-prune.service").read_text(), re.M)
    holds(commands.index("check") < commands.index("prune"), f"the commands of a prune are {commands}")


@trial
def systemd_takes_the_units():
    needs("systemd-analyze")
    says_nothing(UNITS / "verify.sh", shutil.which("true"))
