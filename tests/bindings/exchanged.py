"""exchanged FOLDER TO: copies the libraries of a folder for ARM64. In a copy each store with release is an exchange: `stlr x, [y]`
is `swpal x, xzr, [y]`. qemu-aarch64 7.2 on x86-64 translates `stlr` to a fence and a store, and `ldar` to a load and a fence, so that a
load may pass an earlier store, which ARM64 forbids, and no `swpal`. It prints the number of stores of each library."""
import shutil
import struct
import sys
from pathlib import Path

CODE, PROGBITS = 4, 1
# the opcodes of `stlr` of 64 bits and of `swpal` to the register that keeps nothing
OPCODE, STORE, EXCHANGE = 0xFFFFFC00, 0xC89FFC00, 0xF8E0801F


def objects(data):
    """Yields where each ELF object begins: of an archive its members, of another file itself."""
    at = 8
    if not data.startswith(b"!<arch>\n"):
        yield 0
    while data.startswith(b"!<arch>\n") and at < len(data):
        if data.startswith(b"\x7fELF", at + 60):
            yield at + 60
        size = int(data[at + 48 : at + 58])
        at += 60 + size + size % 2


def exchanged(data):
    """Makes each store in the code of a library an exchange, and returns their number."""
    count = 0
    for first in objects(data):
        table, = struct.unpack_from("<Q", data, first + 0x28)
        size, sections = struct.unpack_from("<HH", data, first + 0x3A)
        for nth in range(sections):
            kind, flags, _, start, length = struct.unpack_from("<IQQQQ", data, first + table + nth * size + 4)
            for at in range(first + start, first + start + length, 4) if flags & CODE and kind == PROGBITS else ():
                word, = struct.unpack_from("<I", data, at)
                if word & OPCODE == STORE:
                    struct.pack_into("<I", data, at, EXCHANGE | (word & 31) << 16 | word & 0x3E0)
                    count += 1
    return count


def main(folder, to):
    Path(to).mkdir()
    for path in sorted(Path(folder).glob("lib*")):
        data = bytearray(path.read_bytes())
        print(f"{path.name}: {exchanged(data)} stores")
        (Path(to) / path.name).write_bytes(data)
        shutil.copymode(path, Path(to) / path.name)


def command():
    main(*sys.argv[1:])
