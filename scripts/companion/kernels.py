"""Kernels and other files that are given as one: what a file is, and the setup header of a bzImage (The Linux/x86 Boot
Protocol), read and made."""
import os
import struct

from companion.numbers import PAGE, up
from companion.refusals import Wrong
from companion.written import to_write

# How a file begins: the bytes, their place, and what it is. The first that holds is it.
FRONTS = [
    (0x38, b"ARM\x64", "a kernel for arm64 processors"),
    (0x30, b"RISCV", "a kernel for RISC-V processors"),
    (0, b"\x27\x05\x19\x56", "an image of U-Boot, as other processors have them"),
    (0, b"\x1f\x8b", "compressed by gzip"), (0, b"\xfd7zXZ", "compressed by xz"), (0, b"BZh", "compressed by bzip2"),
    (0, b"\x28\xb5\x2f\xfd", "compressed by zstd"), (0, b"\x02\x21\x4c\x18", "compressed by lz4"),
    (0, b"\x89LZO\0\r\n\x1a\n", "compressed by lzop"), (0, b"\x5d\0\0", "compressed by lzma"),
    (0, b"07070", "a cpio archive, as an initrd is"),
    (4, b"zimg", "an EFI image with a compressed kernel in it"),
    (0, b"\x7fELF", "an ELF file"),
]
# e_machine of ELF files that are not for x86-64 (62) or i386 (3)
MACHINES = {40: "arm", 183: "arm64", 243: "RISC-V", 21: "POWER", 22: "S/390"}


def front_of(path):
    """The first bytes of a file."""
    with open(path, "rb") as file:
        return file.read(4096)


def kind_of(front):
    """What a file is by its first bytes: `bzimage`, or a phrase; None where they do not tell."""
    if front[0x1FE:0x200] == b"\x55\xaa" and front[0x202:0x206] == b"HdrS":
        return "bzimage"
    for place, magic, what in FRONTS:
        if front[place : place + len(magic)] == magic:
            machine = MACHINES.get(int.from_bytes(front[18:20], "little")) if magic == b"\x7fELF" else None
            return f"{what} for {machine} processors" if machine else what
    return None


class Kernel:
    """A bzImage, by its setup header."""

    FIELDS = {"setup_sects": ("<B", 0x1F1), "syssize": ("<I", 0x1F4), "version": ("<H", 0x206), "loadflags": ("<B", 0x211),
              "initrd_addr_max": ("<I", 0x22C), "kernel_alignment": ("<I", 0x230), "relocatable_kernel": ("<B", 0x234),
              "xloadflags": ("<H", 0x236), "cmdline_size": ("<I", 0x238), "payload_offset": ("<I", 0x248),
              "payload_length": ("<I", 0x24C), "pref_address": ("<Q", 0x258), "init_size": ("<I", 0x260)}

    def __init__(self, path):
        front = front_of(path)
        if kind_of(front) != "bzimage" or len(front) < 0x264:
            raise Wrong(f"{path} is not a bzImage: it has no setup header of a Linux kernel")
        for name, (form, at) in self.FIELDS.items():
            setattr(self, name, struct.unpack_from(form, front, at)[0])
        self.path, self.length = path, os.path.getsize(path)
        self.start = ((self.setup_sects or 4) + 1) * 512

    def size(self):
        """The bytes of the protected-mode part that are in the file."""
        return self.length - self.start

    def missing(self):
        """How many bytes the file has too few by syssize, which counts the protected-mode part in units of 16 bytes; the
        last 4 of them may be a checksum that a signed or stripped file lacks."""
        return max(0, self.syssize * 16 - self.size()) if self.syssize else 0

    def may_lie_above_4_gib(self):
        return bool(self.xloadflags & 2)

    def memory(self):
        """The bytes of memory that it needs where it lies, and the multiple at which it may begin."""
        return up(max(self.init_size, self.size()), PAGE), self.kernel_alignment

    def lowest(self):
        """The lowest address at which it may lie."""
        return up(max(self.pref_address, 1 << 20), self.kernel_alignment or 1)


def setup_header(init_size, sectors=5, **fields):
    """The real-mode part of a bzImage of so many sectors, as far as a loader reads it: a kernel that needs so many bytes from
    16 MiB on at a multiple of 2 MiB, and may lie above 4 GiB. Each field of `Kernel.FIELDS` may be given."""
    head = bytearray(512 * sectors)
    usual = {"setup_sects": sectors - 1, "version": 0x20F, "loadflags": 1, "initrd_addr_max": 0x7FFFFFFF,
             "kernel_alignment": 0x200000, "relocatable_kernel": 1, "xloadflags": 3, "cmdline_size": 2047,
             "pref_address": 0x1000000, "init_size": init_size}
    # boot_flag, the jump behind whose bytes the header ends, and its mark
    head[0x1FE:0x206] = b"\x55\xaa\xeb\x66HdrS"
    for name, value in {**usual, **fields}.items():
        form, at = Kernel.FIELDS[name]
        struct.pack_into(form, head, at, value)
    return bytes(head)


def write_bzimage(path, size, init_size, pages, **fields):
    """A bzImage of so many bytes, whose protected-mode part is what `pages` gives, page after page."""
    head = setup_header(init_size, **{"syssize": (size - 512 * 5) // 16, **fields})
    with to_write(path) as out:
        out.write(head)
        left = size - len(head)
        while left > 0:
            left -= out.write(next(pages)[:left])
