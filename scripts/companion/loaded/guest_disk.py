"""The initrd of a guest that loads a next kernel: busybox, the program kexec, what it loads, and what the guest does."""
import gzip
import json
import os
import re
import stat
import subprocess
import sys

from companion.guest_initrd import archive
from companion.program import PLACE
from companion.refusals import Wrong

FOLDER, PROGRAM, FILE = stat.S_IFDIR | 0o755, stat.S_IFREG | 0o755, stat.S_IFREG | 0o644
NEXT = "console=ttyS0 way=next quiet no_timer_check panic=-1"
LOADS = {
    "load": "-c -l /next/kernel --initrd=/next/initrd --command-line=\"$next\"",
    "file": "-s -l /next/kernel --initrd=/next/initrd --command-line=\"$next\"",
    "vmcore": "-c -l /next/kernel --initrd=/next/initrd --command-line=\"$next\" && "
              "kexec -c -p /next/kernel --initrd=/next/initrd --command-line=\"$next\"",
    "crash": "-c -p /next/kernel --initrd=/next/initrd --command-line=\"$next\"",
    "crash-file": "-s -p /next/kernel --initrd=/next/initrd --command-line=\"$next\"",
    "multiboot": "-c -l --type=multiboot-x86 /next/kernel --command-line=\"console=com1 com1=115200,8n1\" "
                 "--module=\"/next/module console=hvc0 way=next quiet panic=-1\" --module=/next/initrd",
}
INIT = """#!/bin/busybox sh
/bin/busybox --install -s /bin
mount -t proc proc /proc
mount -t sysfs sysfs /sys
mount -t devtmpfs dev /dev
echo 0 >/proc/sys/kernel/printk
export LD_LIBRARY_PATH=/lib
way= inside=
for word in $(cat /proc/cmdline); do
    case $word in
        way=*) way=${word#way=} ;;
        inside=*) inside=${word#inside=} ;;
    esac
done
# reads an image here, with these words for it, and says the digests of the files, which take memory here
read_here() {
    PYTHONHOME=/python PYTHONDONTWRITEBYTECODE=1 PYTHONPATH=/lib/companion \\
        /bin/python3 -S -m companion.loaded "$@" /out >/said 2>&1
    status=$?
    cat /said
    echo "STORY $where status $status"
    echo "STORY $where digests $(cd /out && sha256sum memory.kxmem record map | cut -d ' ' -f 1 | tr '\\n' ' ')"
    rm -rf /out
}
next='@NEXT@'
case $way in
@LOADS@
    *)
        echo "STORY next kernel runs: $(uname -r)"
        if [ -e /proc/vmcore ] && [ -e /bin/python3 ]; then
            where=vmcore
            read_here --core /proc/vmcore
            if [ -e /bin/makedumpfile ] && makedumpfile -c -d 31 --message-level 0 /proc/vmcore /dump; then
                where=makedumpfile
                read_here --core /dump
            fi
        fi
        echo 'STORY next kernel ends'
        poweroff -f ;;
esac
echo "STORY kexec status $? next $(cat /sys/kernel/kexec_loaded) crash $(cat /sys/kernel/kexec_crash_loaded)"
echo 'BEGIN map'
cat /proc/iomem
echo 'END map'
if [ "$inside" ]; then
    where=kcore
    case $way in
        crash*) read_here --crash ;;
        *) read_here ;;
    esac
fi
echo 'STORY ready'
read line </dev/ttyS1
case $way in
    crash* | vmcore) echo c >/proc/sysrq-trigger ;;
    *) kexec -e ;;
esac
echo "STORY kexec came back with status $?"
poweroff -f
"""


def init():
    """The text of /init: the command line says what the guest does."""
    loads = "\n".join(f"    {way}) kexec {words} ;;" for way, words in LOADS.items())
    return INIT.replace("@NEXT@", NEXT).replace("@LOADS@", loads)


def with_folders(rows):
    """Entries (name, mode, bytes), each name once, and before them the folders that the names need."""
    entries = {}
    for name, mode, data in rows:
        parts = name.split("/")
        for i in range(1, len(parts)):
            folder = "/".join(parts[:i])
            entries.setdefault(folder, (folder, FOLDER, b""))
        entries.setdefault(name, (name, mode, data))
    return list(entries.values())


def content(path):
    with open(path, "rb") as file:
        return file.read()


def unpacked(path):
    """The bytes of a kernel: a Multiboot one may be packed by gzip, which not every kexec unpacks."""
    data = content(path)
    return gzip.decompress(data) if data[:2] == b"\x1f\x8b" else data


def libraries(program):
    """The libraries that a program is linked to, as ldd finds them."""
    ended = subprocess.run(["ldd", program], capture_output=True, text=True)
    if "not found" in ended.stdout:
        lacking = re.findall(r"(\S+) => not found", ended.stdout)
        raise Wrong(f"{program} needs {', '.join(lacking)}, which ldd does not find: install its package, or set "
                    "LD_LIBRARY_PATH")
    return sorted(set(re.findall(r"(/\S+) \(0x", ended.stdout)))


def with_libraries(program, name):
    """The entries of a program and its libraries; the linker lies where the program says."""
    rows = [(name, PROGRAM, content(program))]
    for path in libraries(program):
        is_linker = os.path.basename(path).startswith("ld-linux")
        rows.append((path.lstrip("/") if is_linker else f"lib/{os.path.basename(path)}", PROGRAM, content(path)))
    return rows


def python():
    """The entries of Python, and of the modules that the companion's reader needs."""
    ask = ("import sys, json, runpy, encodings.ascii, encodings.utf_8, encodings.latin_1, companion.loaded.__main__\n"
           "companion.loaded.parser().parse_args(['.'])\n"
           "print(json.dumps([m.__file__ for m in list(sys.modules.values()) if getattr(m, '__file__', None)]))")
    told = subprocess.run([sys.executable, "-S", "-c", ask], env={**os.environ, "PYTHONPATH": PLACE}, capture_output=True,
                          text=True)
    if told.returncode:
        raise Wrong(f"Python does not list its modules: {told.stderr.strip()}")
    version = f"python{sys.version_info.major}.{sys.version_info.minor}"
    top, rows = os.path.dirname(os.__file__), with_libraries(os.path.realpath(sys.executable), "bin/python3")
    for path in json.loads(told.stdout):
        if path.startswith(PLACE + os.sep):
            rows.append((f"lib/companion/{os.path.relpath(path, PLACE)}", FILE, content(path)))
        elif path.startswith(top + os.sep):
            rows.append((f"python/lib/{version}/{os.path.relpath(path, top)}", FILE, content(path)))
            if path.endswith(".so"):
                rows += with_libraries(path, f"python/lib/{version}/{os.path.relpath(path, top)}")[1:]
    return rows


def base(busybox):
    """The entries that every guest has."""
    rows = [(name, FOLDER, b"") for name in ("bin", "proc", "sys", "dev", "tmp", "var/run")]
    return rows + [("bin/busybox", PROGRAM, content(busybox)), ("init", PROGRAM, init().encode())]


def next_initrd(given):
    """The initrd of the next kernel: with so many MiB of noise, which no compression makes smaller; that of a crash kernel
    has Python too, if it is to read its /proc/vmcore."""
    rows = base(given.busybox) + [("noise", FILE, os.urandom(given.noise << 20))] * bool(given.noise)
    if given.way == "vmcore":
        rows += python() + (with_libraries(given.makedumpfile, "bin/makedumpfile") if given.makedumpfile else [])
    return archive(with_folders(rows))


def initrd(given, inner):
    """The initrd of the guest, which has the next kernel and its initrd in it."""
    rows = base(given.busybox) + with_libraries(given.loader, "bin/kexec")
    rows += [("next/kernel", FILE, unpacked(given.next)), ("next/initrd", FILE, inner)]
    if given.module:
        rows.append(("next/module", FILE, content(given.module)))
    if given.inside:
        rows += python()
    return archive(with_folders(rows))
