"""Files that are written: where that fails, as on a full disk, the fault names the file, which Python leaves out."""
import io


class _File(io.FileIO):
    """A file whose faults name it."""

    def write(self, data):
        try:
            return super().write(data)
        except OSError as error:
            error.filename = self.name
            raise


def to_write(path, is_text=False):
    """A new file, of bytes, or of a text in UTF-8 (bytes that are none of it may stand in it as surrogates)."""
    file = io.BufferedWriter(_File(path, "w"))
    return io.TextIOWrapper(file, encoding="utf-8", errors="surrogateescape", newline="") if is_text else file


def write_text(path, text):
    with to_write(path, True) as out:
        out.write(text)


def write_bytes(path, data):
    with to_write(path) as out:
        out.write(data)
