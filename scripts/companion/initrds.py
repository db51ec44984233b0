"""Initial RAM disks: what a file is, and how many bytes it takes when Linux has unpacked it.

An initrd is one archive of cpio or several, each as it is or compressed (Documentation/driver-api/early-userspace/
buffer-format). Linux keeps the file until it is unpacked, and then has both in memory.
"""
import bz2
import lzma
import re
import shutil
import subprocess
import tempfile
import zlib

from companion.numbers import PAGE, up

# How much larger an archive may be that cannot be unpacked here: as a rule of thumb.
USUAL = 4
STEP = 1 << 20
# What compresses in which way, by how it begins; and the tool that unpacks what Python cannot.
GZIP, XZ, LZMA, BZIP2 = b"\x1f\x8b", b"\xfd7zXZ\0", b"\x5d\0\0", b"BZh"
TOOLS = {b"\x28\xb5\x2f\xfd": "zstd", b"\x02\x21\x4c\x18": "lz4", b"\x04\x22\x4d\x18": "lz4", b"\x89LZO": "lzop"}
CPIO = (b"070701", b"070702")
NOT_ZERO = re.compile(rb"[^\0]")


def entry_size(head):
    """The bytes of an entry of an archive, and of its file: from its 110 bytes of hexadecimal fields."""
    size, name = int(head[54:62], 16), int(head[94:102], 16)
    return up(110 + name, 4) + up(size, 4), size, name


def plain_archive(data, at):
    """Where an archive that begins at a place ends, and the pages of its files in bytes. It ends behind its trailer; without
    one, at the last entry that is whole."""
    pages = 0
    while data[at : at + 6] in CPIO and at + 110 <= len(data):
        try:
            whole, size, name = entry_size(data[at : at + 110])
        except ValueError:
            break
        is_trailer = data[at + 110 : at + 110 + name].startswith(b"TRAILER!!!")
        pages += up(size, PAGE)
        at += whole
        if is_trailer:
            break
    return at, pages


def unpacker(data, at):
    """What unpacks the bytes from a place on, in Python; None where nothing does."""
    if data[at : at + 2] == GZIP:
        return zlib.decompressobj(31)
    if data[at : at + 6] == XZ or data[at : at + 3] == LZMA:
        return lzma.LZMADecompressor()
    return bz2.BZ2Decompressor() if data[at : at + 3] == BZIP2 else None


def unpacked_by(made, data, at):
    """How many bytes come out, and where the compressed bytes end."""
    size, place = 0, at
    while place < len(data) and not made.eof:
        size += len(made.decompress(data[place : place + STEP]))
        place += STEP
    return size, min(place, len(data)) - len(made.unused_data)


def unpacked_by_tool(tool, data, at):
    """How many bytes a tool makes of the rest of the file; None where it is not there or does not."""
    if not shutil.which(tool):
        return None
    with tempfile.TemporaryFile() as file:
        file.write(data[at:])
        file.seek(0)
        with subprocess.Popen([tool, "-dc"], stdin=file, stdout=subprocess.PIPE, stderr=subprocess.DEVNULL) as run:
            size = sum(map(len, iter(lambda: run.stdout.read(STEP), b"")))
    return None if run.returncode else size


class Unpacked:
    """What is known of an initrd: the bytes that it has, and those that it takes unpacked."""

    def __init__(self, path):
        with open(path, "rb") as file:
            data = file.read()
        self.bytes, self.size, self.is_guess, self.is_archive = len(data), 0, False, False
        at = 0
        while at < len(data):
            end = self.take(data, at)
            if end <= at:
                break
            # zeros stand between the archives
            found = NOT_ZERO.search(data, end)
            at = found.start() if found else len(data)

    def take(self, data, at):
        """Counts the archive that begins at a place, and answers where it ends."""
        if data[at : at + 6] in CPIO:
            self.is_archive = True
            end, pages = plain_archive(data, at)
            self.size += pages
            return end
        made = unpacker(data, at)
        tool = next((name for magic, name in TOOLS.items() if data[at : at + len(magic)] == magic), None) if not made else None
        if not made and not tool:
            return at
        self.is_archive = True
        try:
            size, end = unpacked_by(made, data, at) if made else (unpacked_by_tool(tool, data, at), len(data))
        except (zlib.error, lzma.LZMAError, OSError, EOFError):
            size, end = None, len(data)
        self.is_guess |= size is None
        self.size += USUAL * (len(data) - at) if size is None else size
        return end
