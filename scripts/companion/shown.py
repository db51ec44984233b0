"""How pages, bytes and load records are shown, as lines and as objects for JSON."""
from companion.numbers import PAGE, counted, size_text, span


def page_run(first, last, name=""):
    return f"{span(first, last)} {counted(last - first + 1, 'page')}{': ' * bool(name)}{name}"


def run_object(first, last, **more):
    return {"start": first * PAGE, "end": (last + 1) * PAGE, "pages": last - first + 1, **more}


def hexdump(start, data, mark=""):
    """The lines of a hexdump."""
    for i in range(0, len(data), 16):
        row = data[i : i + 16]
        text = "".join(chr(byte) if 32 <= byte < 127 else "." for byte in row)
        yield f"{mark}{start + i:#014x}  {row[:8].hex(' '):23}  {row[8:].hex(' '):23}  |{text}|"


def segment_objects(record):
    return [{"number": i, "name": name or None, "start": segment.mem, "end": segment.mem + segment.memsz,
             "bytes": len(segment.data)} for i, (segment, name) in enumerate(zip(record.segments, record.names()))]


def segment_lines(record):
    for i, (segment, name) in enumerate(zip(record.segments, record.names())):
        last = segment.mem + segment.memsz - 1
        yield (f"segment {i} {segment.mem:#x}-{last:#x} {name or 'segment'}: {size_text(len(segment.data))} in "
               f"{size_text(segment.memsz)}")


def head_line(record):
    return f"head {record.head:#x} control {record.control:#x}" + (f" swap {record.swap:#x}" if record.mode else "")


def record_object(record):
    """Every number of a load record."""
    pages = {"head": record.head, "control": record.control, "swap": record.swap if record.mode else None}
    purgatory = {"regions": record.regions, "digest": record.digest} if record.regions else None
    return {"record_version": record.version, "kind": "crash" if record.kind else "normal",
            "mode": "preserved" if record.mode else "plain", **pages, "entry": record.entry, "rax": record.rax,
            "rbx": record.rbx, "rsi": record.rsi, "purgatory": purgatory, "segments": segment_objects(record)}
