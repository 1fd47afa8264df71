"""What a loss of power leaves of files: each sector that was written and not synced is as it was before, or as it was written."""
import os
import struct

SECTOR = 512
RECORD = struct.Struct("<IIQQQQ")
WRITE, SYNC, LENGTH = 0, 1, 2


def unsynced(log):
    """The records of each file behind its last sync, by its path: (kind, offset, size, length before, bytes before)."""
    found = {}
    with open(log, "rb") as records:
        while len(head := records.read(RECORD.size)) == RECORD.size:
            kind, path, at, size, length, count = RECORD.unpack(head)
            path, old = records.read(path), records.read(count)
            if len(old) < count:
                break
            if kind == SYNC:
                found[path] = []
            else:
                found.setdefault(path, []).append((kind, at, size, length, old))
    return found


def lose(log, chance):
    """Takes back what was noted and not synced: of each file nothing, all, or each sector by chance. Says how many sectors went."""
    lost = 0
    if not os.path.exists(log):
        return lost
    for path, records in unsynced(log).items():
        share = chance.choice([0, 0.5, 0.5, 1])
        with open(path, "r+b") as file:
            for kind, at, size, length, old in reversed(records):
                lost += take_back(file, kind, at, size, length, old, lambda: chance.random() < share)
    os.remove(log)
    return lost


def take_back(file, kind, at, size, length, old, goes):
    """One write or change of a length."""
    if kind == LENGTH:
        if not goes():
            return 0
        file.seek(at)
        file.write(old)
        file.truncate(length)
        return 1
    lost, begin = 0, at
    while begin < at + size:
        end = min(at + size, (begin // SECTOR + 1) * SECTOR)
        if goes():
            lost += 1
            file.seek(begin)
            # What lies past the old end was nothing.
            file.write(old[begin - at:end - at].ljust(end - begin, b"\0"))
        begin = end
    if lost and at + size > length and goes():
        file.truncate(max(length, at))
    return lost
