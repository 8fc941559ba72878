#!/usr/bin/env python3
"""Draws docs/pictures: the layers of crates, what a backup and a prune ask in time, and what is proved of what.

Usage: scripts/diagrams.py [--check]

The layers are those of the first table of docs/ARCHITECTURE.md. What a backup and a prune ask is what the reference of the cases
asks (scripts/cases), over a small store. What is proved of what are the rows of the second table of README.md, with its premises.
With --check nothing is written: it prints a line for each picture that isn't as it would be drawn. Exit status 1 where it did.
"""
import re
import sys
from html import escape
from pathlib import Path

ROOT = Path(__file__).resolve().parents[1]
PICTURES = ROOT / "docs/pictures"
sys.path.insert(0, str(ROOT / "scripts/cases"))
sys.dont_write_bytecode = True

from graph import below  # noqa: E402
from jobs import Backup, Client, Forget  # noqa: E402
from prunes import Prune  # noqa: E402
from store import Store  # noqa: E402
from texts import config_text  # noqa: E402

FONT = 'font-family="DejaVu Sans, Verdana, sans-serif"'
INK, PALE, EDGE = "#1c2b3a", "#e8eef4", "#7a8fa3"
# The width of a row of crates, and how far their middles lie apart at least.
ROW, APART = 860, 132
TINTS = {"formats": "#dcebdc", "store": "#f6e7cf", "clients": "#d9e6f5", "world": "#ecdff0", "program": "#e4e4e4"}


class Picture:
    """An SVG that grows: shapes, and the room that they take."""

    def __init__(self, title):
        self.title, self.shapes, self.width, self.height = title, [], 0, 0

    def reach(self, x, y):
        self.width, self.height = max(self.width, x), max(self.height, y)

    def box(self, x, y, width, height, fill):
        self.shapes.append(f'<rect x="{x:g}" y="{y:g}" width="{width:g}" height="{height:g}" rx="5" fill="{fill}" stroke="{EDGE}"/>')
        self.reach(x + width, y + height)

    def text(self, x, y, words, size=13, anchor="middle", weight="normal"):
        self.shapes.append(f'<text x="{x:g}" y="{y:g}" font-size="{size}" text-anchor="{anchor}" font-weight="{weight}">{escape(words)}</text>')
        self.reach(x + (0 if anchor == "middle" else size * 0.62 * len(words)), y + 6)

    def line(self, x1, y1, x2, y2, arrow=False, dashed=False):
        ends = ' marker-end="url(#tip)"' if arrow else ""
        dashes = ' stroke-dasharray="4 4"' if dashed else ""
        self.shapes.append(f'<line x1="{x1:g}" y1="{y1:g}" x2="{x2:g}" y2="{y2:g}" stroke="{EDGE}" stroke-width="1.2"{dashes}{ends}/>')

    def svg(self):
        width, height = self.width + 20, self.height + 20
        tip = f'<marker id="tip" viewBox="0 0 10 10" refX="9" refY="5" markerWidth="7" markerHeight="7" orient="auto"><path d="M0 0L10 5L0 10z" fill="{EDGE}"/></marker>'
        head = f'<svg xmlns="http://www.w3.org/2000/svg" viewBox="0 0 {width:g} {height:g}" width="{width:g}" height="{height:g}" {FONT} fill="{INK}">'
        return "\n".join([head, f"<title>{escape(self.title)}</title>", f"<defs>{tip}</defs>", '<rect width="100%" height="100%" fill="#ffffff"/>', *self.shapes, "</svg>", ""])


def crates_of_page():
    """Each crate of the page, with those that it stands on."""
    rows = re.findall(r"^\| `(\w+)` \| ([^|]*) \|", (ROOT / "docs/ARCHITECTURE.md").read_text(), re.M)
    names = {name for name, _ in rows}
    return {name: [it for it in re.findall(r"`(\w+)`", on) if it in names] for name, on in rows}


def level(crates, name):
    return 1 + max((level(crates, it) for it in crates[name]), default=-1)


def sort_of(crates, name):
    under = below(crates, name) | {name}
    for sort, top in (("program", "repo_prog"), ("world", "repo_world"), ("clients", "repo_session"), ("store", "repo_store")):
        if top in under:
            return sort
    return "store" if name == "repo_disk" else "formats"


def needed(crates, name):
    """What a crate stands on, but for what stands below another one of these."""
    return [it for it in crates[name] if not any(it in below(crates, other) for other in crates[name] if other != it)]


def placed(crates):
    """The middle of each crate's box, row by row from the lowest: over those that it stands on, and not over one another."""
    rows = {}
    for name in crates:
        rows.setdefault(level(crates, name), []).append(name)
    middles = {}
    for row in sorted(rows):
        wanted = {name: sum(middles[it][0] for it in needed(crates, name)) / len(needed(crates, name)) for name in rows[row] if needed(crates, name)}
        names = sorted(rows[row], key=lambda name: wanted.get(name, ROW / 2))
        gap = max(APART, min(APART * 1.6, ROW / len(names)))
        start = 40 + ROW / 2 - gap * (len(names) - 1) / 2
        for at, name in enumerate(names):
            middles[name] = (start + at * gap + (24 if row % 2 else -24), 70 + (max(rows) - row) * 78)
    return middles


def layers():
    picture, crates = Picture("The layers of crates"), crates_of_page()
    middles = placed(crates)
    for name in crates:
        for it in needed(crates, name):
            (x, y), (under_x, under_y) = middles[name], middles[it]
            picture.line(x, y + 15, under_x, under_y - 16, arrow=True)
    for name, (x, y) in middles.items():
        picture.box(x - 57, y - 15, 114, 30, TINTS[sort_of(crates, name)])
        picture.text(x, y + 5, name)
    for at, (sort, tint) in enumerate(TINTS.items()):
        picture.box(40 + at * 110, 10, 16, 16, tint)
        picture.text(62 + at * 110, 23, sort, anchor="start")
    return picture


def object_of(ask):
    return {"get": ask[1:2], "put": ask[2:3], "delete": ask[2:3], "list": ask[1:2]}.get(ask[0], ())


# What a reply brings, where it is no word of its own.
BRINGS = {"ticket": "token", "list": "names", "config": "config", "get": "bytes", "range": "bytes"}


def asks_of(store, job, instance):
    """What a client asks at a store until its end, each with a reply in a word; what follows alike is counted."""
    client, rows = Client(job, bytes([instance] * 16), "laptop", 1793923200 + instance), []
    for ask, say in client.exchanges(store):
        row = (" ".join([ask[0], *object_of(ask)]), BRINGS.get(ask[0], say[0]))
        if rows and rows[-1][0] == row:
            rows[-1][1] += 1
        else:
            rows.append([row, 1])
    return client, rows


MEANINGS = {
    "ticket": "a new number, given once",
    "lock": "from here on each change carries it",
    "config": "how files are cut and packed",
    "list index": "which indexes there are",
    "get index": "which blobs are there already",
    "put pack": "blobs that aren't there, in packs",
    "put index": "after its packs",
    "put snapshot": "last: all that it needs is there",
    "unlock": "the lock is given back",
    "list snapshot": "which snapshots there are",
    "get snapshot": "where their trees begin",
    "list pack": "which packs there are",
    "range": "trees, then blobs that move",
    "delete index": "only once new ones name all that is needed",
    "delete pack": "what no index names now",
}


# What means another thing in a prune.
OF_A_PRUNE = {
    "get index": "which blobs stand where",
    "put pack": "what is still needed of packs that go",
    "put index": "all that is needed, in its new places",
}


def in_time(title, rows, meanings):
    picture = Picture(title)
    left, right, note = 130, 470, 500
    picture.text(left, 30, "client", weight="bold")
    picture.text(right, 30, "store", weight="bold")
    y = 44
    for at, ((ask, say), count) in enumerate(rows):
        y = 66 + at * 46
        picture.line(left, y, right, y, arrow=True)
        picture.text((left + right) / 2, y - 5, ask + (f"  ({count} times)" if count > 1 else ""))
        picture.line(right, y + 17, left, y + 17, arrow=True, dashed=True)
        picture.text((left + right) / 2, y + 13, say, size=11)
        picture.text(note, y + 4, meanings.get(ask, ""), size=12, anchor="start")
    for x in (left, right):
        picture.line(x, 40, x, y + 34)
    picture.reach(left, y + 34)
    return picture


def folder(count):
    """A folder of some files whose bytes differ."""
    return [([f"file-{it}"], bytes([it + 1]) * 5000) for it in range(count)]


def runs():
    """A backup and a prune, over one store."""
    store = Store()
    store.config = config_text(512, 4096, 9, 8192)
    _, backup = asks_of(store, Backup(folder(4)), 1)
    second, _ = asks_of(store, Backup(folder(2)), 2)
    first = next(name for name in store.objects["snapshot"] if name != second.outcome.name)
    asks_of(store, Forget([first]), 3)
    return backup, asks_of(store, Prune(), 4)[1]


def backup():
    return in_time("What a backup asks, in time", runs()[0], MEANINGS)


def prune():
    return in_time("What a prune asks, in time", runs()[1], MEANINGS | OF_A_PRUNE)


def lines_of(words, most):
    """Words in lines of so many characters."""
    lines = [""]
    for word in words.split():
        if len(lines[-1]) + len(word) >= most and lines[-1]:
            lines.append("")
        lines[-1] = f"{lines[-1]} {word}".strip()
    return lines


def plain(text):
    """A text without its marks, and its links as what they are called."""
    return re.sub(r"[`*]", "", re.sub(r"\[([^\]]*)\]\([^)]*\)", r"\1", text)).strip()


def proved():
    """The headline on top, under it each claim that it or the program stands on, and the premises at the foot."""
    picture, page = Picture("What is proved of what"), (ROOT / "README.md").read_text()
    headline = [plain(it) for it in re.findall(r"^- (.*)$", page.split("**The headline.**")[1].split("This is the contract")[0], re.M)]
    claims = [(plain(claim), plain(where)) for claim, where in re.findall(r"^\| ([^|]+) \| ([^|]+) \|$", page.split("| Claim | Where |")[1], re.M) if claim.strip("- ")]
    premises = [plain(it) for it in re.findall(r"\*Premises?[^*]*\*: ([^*]*)", page)]
    y = band(picture, 20, "After each event of every run of any number of clients", headline, TINTS["world"])
    y = band(picture, y, "It stands on", [f"{claim}  ({where})" for claim, where in claims], TINTS["clients"])
    band(picture, y, "Premises, which nothing here proves", premises, TINTS["program"])
    return picture


def band(picture, y, title, texts, tint):
    """A title with a box for each text below; where it ends."""
    picture.text(20, y + 16, title, size=14, anchor="start", weight="bold")
    y += 26
    for text in texts:
        lines = lines_of(text, 108)
        picture.box(20, y, 740, 14 + 17 * len(lines), tint)
        for at, line in enumerate(lines):
            picture.text(34, y + 20 + 17 * at, line, size=12.5, anchor="start")
        y += 22 + 17 * len(lines)
    return y + 12


def main():
    is_check = sys.argv[1:] == ["--check"]
    if sys.argv[1:] and not is_check:
        print(__doc__.strip().split("\n\n")[1], file=sys.stderr)
        return 2
    others = 0
    for draw in (layers, backup, prune, proved):
        path, text = PICTURES / f"{draw.__name__}.svg", draw().svg()
        if is_check and (not path.exists() or path.read_text() != text):
            print(f"{path.relative_to(ROOT)} isn't as it would be drawn")
            others += 1
        if not is_check:
            PICTURES.mkdir(exist_ok=True)
            path.write_text(text)
    return 1 if others else 0


if __name__ == "__main__":
    sys.exit(main())
