"""Edits that the prover has to refuse: what they turn."""
import difflib
import os
import re

FUNCTION = re.compile(r"^( *)(?:pub(?:\(crate\))? )?fn (\w+)")
IMPL = re.compile(r"^(?:impl|trait|pub trait)\b(.*)")


def function_at(lines, index):
    """The place of the function in which a line stands: the line of its name; None above the first."""
    return next((at for at in range(min(index, len(lines) - 1), -1, -1) if FUNCTION.match(lines[at])), None)


def turned_lines(old, new):
    """The places of those lines of a text of which an edited one has others, or that stand before what it has more."""
    for tag, start, end, _, _ in difflib.SequenceMatcher(None, old, new, False).get_opcodes():
        if tag != "equal":
            yield from range(start, max(end, start + 1))


def turned_functions(old, new):
    """The places of the functions in which a text is turned to another; None where a line above the first one is."""
    return {function_at(old, at) for at in turned_lines(old, new)}


def plain(words):
    """A type's words without what stands in angle brackets."""
    shorter = re.sub(r"<[^<>]*>", "", words)
    return words if shorter == words else plain(shorter)


def with_arguments(trait, header):
    """A trait as the prover names it in what an `impl` of it has: with the words of what stands in its angle brackets, each begun with a
    capital letter."""
    found = re.search(rf"\b{re.escape(trait)}<(.*)> for ", header)
    words = re.findall(r"(?<!')\b[A-Za-z]\w*", found[1]) if found else []
    return "".join([trait, *(word[0].upper() + word[1:] for word in words)])


def module_of(file):
    """The module that a file of src/ is, as parts of a path."""
    return [it for it in os.path.splitext(os.path.relpath(file, "src"))[0].split(os.sep) if it not in ("lib", "main")]


def home_of(folder, owner, file):
    """The module in which a type of a crate is declared; that of this file, where none declares it."""
    declared = re.compile(rf"^(?:pub(?:\([^)]*\))? )?(?:struct|enum) {owner}\b", re.M)
    for place, _, names in os.walk(f"{folder}/src"):
        for path in (os.path.join(place, name) for name in sorted(names)):
            with open(path, encoding="utf-8") as it:
                if declared.search(it.read()):
                    return module_of(os.path.relpath(path, folder))
    return module_of(file)


def name_of(folder, file, at):
    """The name under which the prover tells the function in this line of a file of a crate, without the crate's: the methods of a type
    stand in the module that declares it, those of an `impl` of a trait in that of the `impl`, under the type's name with the trait's."""
    with open(f"{folder}/{file}", encoding="utf-8") as it:
        lines = it.read().split("\n")
    inset, own = FUNCTION.match(lines[at]).groups()
    if not inset:
        return "::".join([*module_of(file), own])
    header = IMPL.match(next(lines[line] for line in range(at, -1, -1) if IMPL.match(lines[line])))[1]
    words = plain(header).replace("{", " ").split()
    if "for" in words:
        place = words.index("for")
        return "::".join([*module_of(file), words[place + 1] + with_arguments(words[place - 1], header), own])
    return "::".join([*home_of(folder, words[0], file), words[0], own])
