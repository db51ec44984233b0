"""The initrd of the guests of `guest`: a static busybox and one script, as a cpio archive."""
import stat

from companion.written import to_write

# What the guest, the next kernel and the crash kernel do: the command line says which one it is.
INIT = r"""#!/bin/busybox sh
/bin/busybox --install -s /bin
mount -t proc proc /proc
mount -t sysfs sysfs /sys
mount -t devtmpfs dev /dev
case " $(cat /proc/cmdline) " in
    *' story=guest '*)
        echo 'BEGIN map'
        cat /proc/iomem
        echo 'END map'
        echo 'BEGIN notes'
        for cpu in /sys/devices/system/cpu/cpu[0-9]*; do
            printf '%s %x\n' "$(cat $cpu/crash_notes)" "$(cat $cpu/crash_notes_size)"
        done
        sed 's/^0x0*//' /sys/kernel/vmcoreinfo
        echo 'END notes'
        echo c >/proc/sysrq-trigger ;;
    *' story=next '*)
        echo "STORY next kernel runs: $(uname -r), $(grep MemTotal /proc/meminfo)" ;;
    *' story=crash '*)
        echo "STORY crash kernel runs: $(grep MemTotal /proc/meminfo)"
        echo "STORY vmcore $(ls -l /proc/vmcore)"
        echo "STORY vmcore $(head -c 65536 /proc/vmcore | strings | grep -m 1 OSRELEASE)"
        skip=$((($(stat -c %s /proc/vmcore) - $last) / 4096))
        echo "STORY vmcore ends in $(dd if=/proc/vmcore bs=4096 skip=$skip 2>/dev/null | sha256sum)" ;;
esac
poweroff -f
"""


def archive(entries):
    """A newc archive of (name, mode, bytes)."""
    out = bytearray()
    for number, (name, mode, data) in enumerate([*entries, ("TRAILER!!!", 0, b"")], 1):
        fields = [number, mode, 0, 0, 1, 0, len(data), 0, 0, 0, 0, len(name) + 1, 0]
        out += b"070701" + b"".join(b"%08x" % field for field in fields) + name.encode() + b"\0"
        out += bytes(-len(out) % 4) + data
        out += bytes(-len(out) % 4)
    return bytes(out)


def make_initrd(path, busybox):
    with open(busybox, "rb") as file:
        program = file.read()
    folders = [(name, stat.S_IFDIR | 0o755, b"") for name in ("bin", "proc", "sys", "dev")]
    entries = [("bin/busybox", stat.S_IFREG | 0o755, program), ("init", stat.S_IFREG | 0o755, INIT.encode())]
    with to_write(path) as out:
        out.write(archive([*folders, *entries]))


def said_between(console, name):
    text = console.decode(errors="replace").replace("\r", "")
    return text.partition(f"BEGIN {name}\n")[2].partition(f"END {name}\n")[0]
