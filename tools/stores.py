"""What the tools know of a store: its files, and whether somebody has it."""
import errno
import fcntl
import os
import struct

# What stands behind the store's name in those of the files beside it: the log, the bodies, and what is kept in reserve for a full disk.
LOG, BODIES, RESERVE = "-wal", ".pieces", ".pieces-wal"
SUFFIXES = ["", LOG, BODIES, RESERVE]
# The bytes of a file that stand for SQLite's lock: the first one, and how many.
LOCK = (1 << 30, 512)


def files(store):
    """Those of the store's files that there are."""
    return [store + suffix for suffix in SUFFIXES if os.path.exists(store + suffix)]


class Taken(Exception):
    """Somebody else has the store."""


def lock(file):
    """Keeps the store from everybody else as long as the file is open, for reading alone; nothing is written."""
    try:
        fcntl.fcntl(file, fcntl.F_OFD_SETLK, struct.pack("hhqqi4x", fcntl.F_RDLCK, os.SEEK_SET, *LOCK, 0))
    except OSError as error:
        if error.errno in (errno.EAGAIN, errno.EACCES):
            raise Taken from None
        raise
