"""A file system over a folder that reports lost bytes late, or not at all. It needs fusepy.

Usage: late_files.py FOLDER MOUNT WORD..

It is mounted until it is ended, and passes every call on to FOLDER. Of a file it keeps the first 10,000 bytes, and answers each write as if
all of it were kept. The words say what fails then: `fsync`, the sync of the handle by which too many bytes were written, with ENOSPC; `flush`,
the close of that handle, with ENOSPC; `folders`, each sync of a folder, with EINVAL; `files`, each sync of a file, with EINVAL. With `held` a
file has all its bytes until that close, which cuts them off; with `lost` that close removes the file.
"""
import errno
import os
import sys

try:
    from fusepy import FUSE, FuseOSError, Operations
except ImportError:
    from fuse import FUSE, FuseOSError, Operations

MOST = 10_000


class Late(Operations):
    def __init__(self, folder, words):
        self.folder, self.words, self.spoiled = folder, words, set()
        self.most = 1 << 40 if {"held", "lost"} & set(words) else MOST

    def at(self, path):
        return self.folder + path

    def getattr(self, path, fh=None):
        try:
            found = os.lstat(self.at(path))
        except OSError as error:
            raise FuseOSError(error.errno) from error
        return {name: getattr(found, name) for name in ("st_mode", "st_nlink", "st_size", "st_uid", "st_gid", "st_mtime", "st_atime", "st_ctime")}

    def readdir(self, path, fh):
        return [".", "..", *os.listdir(self.at(path))]

    def mkdir(self, path, mode):
        os.mkdir(self.at(path), mode)

    def rmdir(self, path):
        os.rmdir(self.at(path))

    def unlink(self, path):
        os.unlink(self.at(path))

    def rename(self, old, new):
        os.rename(self.at(old), self.at(new))

    def create(self, path, mode, fi=None):
        return os.open(self.at(path), os.O_RDWR | os.O_CREAT | os.O_EXCL, mode)

    def open(self, path, flags):
        return os.open(self.at(path), flags & ~os.O_CREAT)

    def read(self, path, size, offset, fh):
        return os.pread(fh, size, offset)

    def truncate(self, path, length, fh=None):
        os.truncate(self.at(path), min(length, self.most))

    def write(self, path, data, offset, fh):
        kept = data[:max(0, self.most - offset)]
        if offset + len(data) > MOST:
            self.spoiled.add(fh)
        os.pwrite(fh, kept, offset)
        return len(data)

    def fails_late(self, word, fh):
        if word in self.words and fh in self.spoiled:
            raise FuseOSError(errno.ENOSPC)
        return 0

    def flush(self, path, fh):
        if fh in self.spoiled and "held" in self.words:
            os.ftruncate(fh, MOST)
        if fh in self.spoiled and "lost" in self.words:
            os.unlink(self.at(path))
        return self.fails_late("flush", fh)

    def fsync(self, path, datasync, fh):
        if "files" in self.words:
            raise FuseOSError(errno.EINVAL)
        return self.fails_late("fsync", fh)

    def fsyncdir(self, path, datasync, fh):
        if "folders" in self.words:
            raise FuseOSError(errno.EINVAL)
        return 0

    def release(self, path, fh):
        self.spoiled.discard(fh)
        os.close(fh)
        return 0


if __name__ == "__main__":
    FUSE(Late(sys.argv[1], sys.argv[3:]), sys.argv[2], foreground=True, nothreads=True)
