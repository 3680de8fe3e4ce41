#!/usr/bin/env python3
"""Copies a spool, also while the service uses it: copy-spool.py FOLDER FILE

FOLDER is the spool's folder, such as /var/lib/cegmandi, and FILE a new file, which can become the file `spool.disk` of another folder. The
copy is the state of one moment between the start of this program and its end, with all jobs, queues and documents that were acknowledged
before the start. It has the length of the spool's file, but takes only the space of its contents. The service is not stopped, and does not
notice the copy. Run it as a user who may read the spool, on the host that serves.

Restore a copy only while no program uses the folder. Jobs that were printed after the copy was made are then printed again.

The last line is `copied N records`, with status 0. If no copy was made, FILE does not exist, and the status is 1.
"""
import os
import sys
import time

OPEN, CLOSED = b"\xa5", b"\0"
HEADER = 16
FRAME = 5  # the gate and the length of a record
VERSIONS = (1, 2)
PIECE = 1 << 20
# How often the copy begins again after checkpoints that may have overwritten what it read, and the seconds before that.
TRIES, PAUSE = 40, 0.05


class Fault(Exception):
    """The file is not a spool, or no copy succeeded."""


class Changed(Exception):
    """Perhaps a checkpoint overwrote what was read: begin again."""


def current_area(read, size):
    """The header of the current area, and its offset."""
    found = [(read(base, HEADER), base) for base in (0, size // 2)]
    found = [(header, base) for header, base in found if header[:1] == OPEN and len(header) == HEADER]
    if not found:
        # Both were closed, one after the other, or the file is not a spool.
        raise Changed("it has no open area")
    header, base = max(found, key=lambda it: it[0][2:10])
    if header[1] not in VERSIONS:
        raise Fault(f"its version is {header[1]}")
    return header, base


def copy_area(read, write, size):
    """Copies the records of the current area. Returns their number.

    The service writes a record, and then opens its gate. It changes a record only after it has closed the header of the area, for a
    checkpoint. So all records with open gates are whole if the header is the same before and after.
    """
    header, base = current_area(read, size)
    gate, end, count = base + HEADER, base + size // 2, 0
    write(base, header)
    while gate < end and read(gate, 1) == OPEN:
        length = int.from_bytes(read(gate + 1, FRAME - 1), "big")
        after = gate + FRAME + length
        if after >= end:
            break
        write(gate, OPEN + length.to_bytes(FRAME - 1, "big"))
        for at in range(gate + FRAME, after, PIECE):
            write(at, read(at, min(PIECE, after - at)))
        gate, count = after, count + 1
    else:
        after = gate
    write(gate, CLOSED)
    if read(base, HEADER) != header:
        raise Changed("its checkpoints are too frequent")
    if after >= end:
        raise Fault(f"it is damaged at byte {gate}")
    return count


def copy_once(source, target):
    """Copies the file of a spool once. Returns the number of records."""
    disk = os.open(source, os.O_RDONLY)
    try:
        size = os.fstat(disk).st_size
        os.ftruncate(target, 0)
        os.ftruncate(target, size)
        count = copy_area(lambda at, length: os.pread(disk, length, at), lambda at, data: os.pwrite(target, data, at), size)
        # The service gives the name to another file if the name was removed.
        if os.stat(source).st_ino != os.fstat(disk).st_ino:
            raise Changed("it is replaced all the time")
        return count
    finally:
        os.close(disk)


def copy_spool(source, file):
    """Copies the file of a spool to a new file. Returns the number of records."""
    target = os.open(f"{file}.new", os.O_RDWR | os.O_CREAT | os.O_EXCL | os.O_NOFOLLOW, 0o600)
    try:
        for _ in range(TRIES):
            try:
                count = copy_once(source, target)
                os.fsync(target)
                # Unlike a rename, it replaces no file.
                os.link(f"{file}.new", file)
                return count
            except Changed as change:
                cause = change
                time.sleep(PAUSE)
        raise Fault(f"{TRIES} copies failed: {cause}")
    finally:
        os.close(target)
        os.unlink(f"{file}.new")


def main():
    if len(sys.argv) != 3:
        sys.exit(__doc__)
    folder, file = sys.argv[1:]
    try:
        count = copy_spool(os.path.join(folder, "spool.disk"), file)
        above = os.open(os.path.dirname(os.path.abspath(file)), os.O_RDONLY)
        os.fsync(above)
    except (Fault, OSError) as fault:
        sys.exit(f"copy-spool: {fault}")
    print(f"copied {count} records")


if __name__ == "__main__":
    main()
