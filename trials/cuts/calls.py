"""What a process asked of the system, read from a log of strace, as events over the paths of one folder and over connections.

An event is a tuple that begins with its word: `open`, `write`, `cut`, `sync`, `rename`, `unlink`, `mkdir`, `close`; `asked` and `replied` with
the number of a connection and its bytes; `told` with what went to standard output. Calls that failed changed nothing, and are left out.
"""
import os
import re
import shutil

from trying import is_possible

TRACED = ("open,openat,creat,read,readv,recvfrom,recvmsg,write,writev,pwrite64,sendto,sendmsg,rename,renameat,renameat2,link,linkat,unlink,"
          "unlinkat,mkdir,mkdirat,rmdir,fsync,fdatasync,close,ftruncate,fallocate,accept,accept4,sync,syncfs,fcntl,dup,dup2,dup3")
LINE = re.compile(r"^(\d+)\s+(.*)$")
CALL = re.compile(r"^([a-z0-9_]+)\((.*)\)\s+= (-?\d+|\?)(.*)$", re.S)
PIECE = re.compile(r'"(?:\\x[0-9a-f]{2})*"(?:\.\.\.)?|[\[\]{}(),]|[^"\[\]{}(),]+')
TEXT = re.compile(r'^"((?:\\x[0-9a-f]{2})*)"')
# Of each call that takes a path, which of its words that is.
PATHS = {"open": [0], "creat": [0], "openat": [1], "rename": [0, 1], "renameat": [1, 3], "renameat2": [1, 3], "unlink": [0], "unlinkat": [1], "rmdir": [0],
         "mkdir": [0], "mkdirat": [1]}
WRITES, READS = ("write", "pwrite64", "writev", "sendto", "sendmsg"), ("read", "readv", "recvfrom", "recvmsg")


def strace(log, inject=None):
    """The words before a command by which its calls are written to a log; `inject` has some of them fail, or the process killed."""
    words = ["strace", "-f", "-qq", "-xx", "-s", "30000000", "-e", f"trace={TRACED}", "-o", str(log)]
    # The filter in the kernel is faster, but then no signal is sent.
    return words + (["-e", f"inject={inject}"] if inject else ["--seccomp-bpf"])


def may_trace():
    """Whether strace is here, and may trace a process with its filter in the kernel."""
    return shutil.which("strace") is not None and is_possible(["strace", "-f", "--seccomp-bpf", "-e", "trace=openat", "-o", os.devnull, "true"])


def words_of(text):
    """Parts the words of a call at the commas outside of quotes and brackets."""
    words, depth, word = [], 0, ""
    for piece in PIECE.findall(text):
        depth += {"[": 1, "{": 1, "(": 1, "]": -1, "}": -1, ")": -1}.get(piece, 0)
        if piece == "," and depth == 0:
            words, word = [*words, word.strip()], ""
        else:
            word += piece
    return [*words, word.strip()] if word else words


def calls(log):
    """Each call that ended, or that was under way when its process did: its name, its words, what it gave, or None where it gave nothing."""
    waiting = {}
    with open(log, errors="replace") as lines:
        for line in lines:
            found = LINE.match(line.rstrip("\n"))
            if not found:
                continue
            process, rest = found.groups()
            if rest.endswith("<unfinished ...>"):
                waiting[process] = rest.removesuffix("<unfinished ...>")
                continue
            resumed = re.match(r"^<\.\.\. \w+ resumed>(.*)$", rest, re.S)
            if resumed:
                rest = waiting.pop(process, "") + resumed[1]
            call = CALL.match(rest)
            if call:
                yield call[1], words_of(call[2]), None if call[3] == "?" else int(call[3])


def text_of(word):
    found = TEXT.match(word)
    return bytes.fromhex(found[1].replace("\\x", "")) if found else b""


def bytes_of(name, words):
    """The bytes that a reading or writing call was about."""
    if name in ("writev", "sendmsg", "readv", "recvmsg"):
        return b"".join(bytes.fromhex(piece.replace("\\x", "")) for piece in re.findall(r'iov_base="((?:\\x[0-9a-f]{2})*)"', words[1]))
    return text_of(words[1])


class Reading:
    """Reads the calls of one process: what each of its open files is."""

    def __init__(self, top):
        self.top, self.open, self.connections = os.path.abspath(top), {}, 0

    def inside(self, word):
        """The path that a word has, where it lies in the folder."""
        path = os.path.normpath(os.path.join(self.top, os.fsdecode(text_of(word))))
        return path if path == self.top or path.startswith(self.top + "/") else None

    def event(self, name, words, gave):
        """The event of a call that did not fail, if it has one."""
        paths = [self.inside(words[at]) for at in PATHS.get(name, [])]
        if name in ("open", "openat", "creat"):
            return self.opens(name, words, gave, paths[0])
        if name in ("accept", "accept4"):
            self.connections += 1
            self.open[gave] = ("connection", self.connections)
        elif name in ("dup", "dup2", "dup3") or name == "fcntl" and "F_DUPFD" in words[1]:
            self.open[gave] = self.open.get(int(words[0]))
        elif name == "close":
            sort = self.open.pop(int(words[0]), None)
            return ("close", int(words[0])) if sort and sort[0] == "file" else None
        elif name in ("rename", "renameat", "renameat2"):
            # What is open keeps its file, which has another name now.
            self.open |= {file: ("file", paths[1]) for file, sort in self.open.items() if sort == ("file", paths[0])}
            return ("rename", *paths) if all(paths) else None
        elif name in ("unlink", "unlinkat", "rmdir", "mkdir", "mkdirat"):
            return ("mkdir" if name.startswith("mkdir") else "unlink", paths[0]) if paths[0] else None
        elif name in ("sync", "syncfs"):
            return ("sync", None, None)
        elif name in ("link", "linkat"):
            raise AssertionError("a link was made, which isn't modelled")
        else:
            return self.moves(name, words, gave)
        return None

    def opens(self, name, words, gave, path):
        self.open[gave] = ("file", path) if path else None
        flags = "O_CREAT|O_TRUNC" if name == "creat" else words[1 + PATHS[name][0]]
        return ("open", path, "O_CREAT" in flags, "O_TRUNC" in flags, "O_APPEND" in flags, gave) if path else None

    def moves(self, name, words, gave):
        """The event of a call on something open."""
        file = int(words[0])
        sort = self.open.get(file) or ("other", None)
        if name in ("fsync", "fdatasync"):
            return ("sync", sort[1], file) if sort[0] == "file" else None
        if name == "ftruncate":
            return ("cut", file, int(words[1])) if sort[0] == "file" else None
        data = bytes_of(name, words)[:gave]
        if name in WRITES and sort[0] == "file":
            return "write", file, data, int(words[3]) if name == "pwrite64" else None
        if name in WRITES and file == 1 and file not in self.open:
            return "told", data
        if sort[0] == "connection":
            return "replied" if name in WRITES else "asked", sort[1], data
        return None


def events(log, top):
    """The events of one process, in their order, over the paths below a folder."""
    reading = Reading(top)
    for name, words, gave in calls(log):
        event = None if gave is None or gave < 0 else reading.event(name, words, gave)
        if event:
            yield event
