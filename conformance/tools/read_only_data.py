#!/usr/bin/env python3
"""The read-only data of an archive or an object file (ELF, 64 bits, little-endian): the bytes of each section and their sum. Request N5: there
is no table of powers of two in it, that is, four of them one after the other as numbers of 1, 2, 4 or 8 bytes.

    tools/read_only_data.py FILE

Exit status: 0 no such table, 1 there is one, 2 FILE can't be read.
"""
import struct
import sys

ALLOCATED, WRITABLE, CODE = 2, 1, 4  # sh_flags
NO_BITS = 8  # sh_type


def objects(content):
    """The object files in an archive, or the one that the file is."""
    if not content.startswith(b"!<arch>\n"):
        yield content
        return
    at = 8
    while at < len(content):
        size = int(content[at + 48 : at + 58])
        member = content[at + 60 : at + 60 + size]
        if member.startswith(b"\x7fELF"):
            yield member
        at += 60 + size + size % 2


def read_only(elf):
    """Name and bytes of each section that is loaded and neither written nor run."""
    if elf[:6] != b"\x7fELF\x02\x01":
        raise ValueError("no ELF of 64 bits, little-endian")
    table, entry, count, names_at = struct.unpack_from("<Q10xHHH", elf, 40)
    sections = [struct.unpack_from("<IIQQQQ", elf, table + i * entry) for i in range(count)]
    names = sections[names_at][4]
    for name, kind, flags, _, at, size in sections:
        if flags & (ALLOCATED | WRITABLE | CODE) == ALLOCATED and kind != NO_BITS:
            start = names + name
            yield elf[start : elf.index(b"\0", start)].decode(), elf[at : at + size]


def power_table(data):
    """Where powers of two first stand one after the other: byte and width, or none."""
    rows = {
        (b"".join((1 << power + i).to_bytes(width, "little") for i in range(4)), width)
        for width in (1, 2, 4, 8)
        for power in range(8 * width - 3)
    }
    return min(((data.find(row), width) for row, width in rows if row in data), default=None)


def main(path):
    total, found = 0, False
    try:
        with open(path, "rb") as file:
            sections = [section for elf in objects(file.read()) for section in read_only(elf)]
    except (OSError, ValueError, IndexError, struct.error) as error:
        print(f"{path}: {error}")
        return 2
    for name, data in sections:
        total += len(data)
        print(f"{len(data):6}  {name}")
        table = power_table(data)
        if table:
            found = True
            print(f"        powers of two from byte {table[0]} on, of {table[1]} bytes each")
    print(f"{total:6}  bytes of read-only data in {path}, {'a' if found else 'no'} table of powers of two among them")
    return 1 if found else 0


if __name__ == "__main__":
    if len(sys.argv) != 2:
        print(__doc__)
        sys.exit(2)
    sys.exit(main(sys.argv[1]))
