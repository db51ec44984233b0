"""The files of scenes: their lines, words and pieces. docs/SCENES.md describes them."""
import hashlib
import os

import kexec_files as files

DATA = f"{files.TOP}/crates/scenes/data"
ESCAPES = {"n": "\n", "r": "\r", "t": "\t", "0": "\0", '"': '"', "\\": "\\"}
WIDTHS = {"u8": 1, "u16": 2, "u32": 4, "u64": 8}
FIELDS = ["kind", "mode", "head", "control", "swap", "entry", "rax", "rbx", "rsi", "regions", "digest", "segments"]
STATEMENTS = ["scene", "file", "kexec", "ends", "tells", "says", "leaves", "shelf", "sink"]


class Text(bytes):
    """A word that stood between quotes or behind a bar; a bare one is a str."""


def scene_files():
    """The corpus."""
    return [f"{DATA}/{name}" for name in sorted(os.listdir(DATA)) if name.endswith(".scenes")]


def words_of(line):
    """The words of a line."""
    bare = line.lstrip()
    if bare.startswith("|"):
        return [Text((bare[1:][bare[1:2] == " ":] + "\n").encode())]
    if bare.startswith("tells "):
        return ["tells", Text(bare[6:].encode())]
    words, at = [], 0
    while at < len(line):
        if line[at] in " \t\r":
            at += 1
        elif line[at] == "#":
            break
        elif line[at] == '"':
            word, at = quoted(line, at + 1)
            words.append(word)
        else:
            end = next((i for i in range(at, len(line)) if line[i] in " \t\r"), len(line))
            words.append(line[at:end])
            at = end
    return words


def quoted(line, at):
    """The text that begins at this place, behind its quote, and the place behind the quote that ends it."""
    found = bytearray()
    while at < len(line) and line[at] != '"':
        step = 1
        if line[at] != "\\":
            found += line[at].encode()
        elif line[at + 1 : at + 2] == "x":
            found.append(int(line[at + 2 : at + 4], 16))
            step = 4
        else:
            found += ESCAPES[line[at + 1]].encode()
            step = 2
        at += step
    if at >= len(line):
        raise ValueError("a quote is missing here")
    return Text(found), at + 1


def hex_of(word):
    try:
        return bytes.fromhex(word)
    except ValueError:
        return None


def name_of(word):
    """A word as the name of a file, which may have blanks between quotes."""
    return word.decode() if isinstance(word, Text) else word


def number_of(word):
    return int(word, 16 if word.startswith("0x") else 10)


def page_of(content, number):
    """What a file gives to a page: of a memory file the bytes of the page of this number, of another all bytes."""
    if not content.startswith(b"KXMEM001"):
        return content
    start = number.to_bytes(8, "little")
    rows = (content[at : at + 8 + files.PAGE] for at in range(16, len(content), 8 + files.PAGE))
    return next((row[8:] for row in rows if row.startswith(start)), b"")


class Builder:
    """A file that is described word by word."""

    def __init__(self):
        self.kind, self.version, self.fields = "plain", 2, {}
        self.parts, self.count, self.part = bytearray(), 0, None
        self.body, self.place, self.times = bytearray(), 0, 1

    def put(self, piece):
        piece = bytes(piece) * self.times
        self.body += bytes(max(0, self.place + len(piece) - len(self.body)))
        self.body[self.place : self.place + len(piece)] = piece
        self.place += len(piece)
        self.times = 1

    def close_part(self):
        body, part = bytes(self.body), self.part
        if part is None:
            self.parts += body
        elif part[0] == "page":
            for i in range(0, max(1, len(body)), files.PAGE):
                number = part[1] + i // files.PAGE
                self.parts += number.to_bytes(8, "little") + body[i : i + files.PAGE].ljust(files.PAGE, b"\0")
                self.count += 1
        else:
            digest = part[3] or hashlib.sha256(body).digest()
            numbers = b"".join(number.to_bytes(8, "little") for number in (part[1], part[2], len(body)))
            self.parts += numbers + (digest if self.version != 1 else b"") + body
            self.count += 1
        self.body, self.place, self.part = bytearray(), 0, None

    def finish(self):
        self.close_part()
        head = b""
        if self.kind == "memory":
            head = b"KXMEM001" + self.count.to_bytes(8, "little")
        elif self.kind == "record":
            head = b"KXREC001" if self.version == 1 else b"KXREC002"
            for i, name in enumerate(FIELDS):
                number = self.fields.get(name, self.count if name == "segments" else 0)
                head += number.to_bytes(8, "little")[: 4 if i < 2 else 8]
        return head + bytes(self.parts)

    def cut(self, length):
        whole = self.finish()
        self.__init__()
        self.body, self.place = bytearray(whole[:length].ljust(length, b"\0")), length

    def begin(self, kind, *part):
        if self.kind != kind:
            raise ValueError("a page stands in a memory, and a segment in a record")
        self.close_part()
        self.part = part

    def add_keyword(self, word, rest, world, lenient):
        """A word that wants others behind it."""
        if word == "like":
            name = name_of(rest.pop(0))
            if name not in world and not lenient:
                raise ValueError(f"'{name}' is not a file that is there")
            content = world.get(name, b"")
            self.put(page_of(content, self.part[1]) if self.part and self.part[0] == "page" else content)
        elif word == "sha256":
            self.part = (*self.part[:3], bytes.fromhex(rest.pop(0)))
        elif word == "segment":
            self.begin("record", "segment", number_of(rest.pop(0)), number_of(rest.pop(0)), None)
        else:
            self.add_number(word, number_of(rest.pop(0)))

    def add_number(self, word, number):
        if word == "at":
            self.place = number
        elif word == "repeat":
            self.times = number
        elif word == "length":
            self.cut(number)
        elif word == "page":
            self.begin("memory", "page", number)
        elif word == "record":
            self.kind, self.version = "record", number
        elif word in FIELDS:
            self.fields[word] = number
        else:
            raise ValueError(f"'{word}' is not a statement or a piece of a file")

    def put_run(self, first, rest, width):
        """Goes on from the number that was laid last, by equal steps; gives the last number of the run."""
        end, by, step = number_of(rest.pop(0)), rest.pop(0), number_of(rest.pop(0))
        if by != "by" or step == 0:
            raise ValueError("a run is 'to', its last number, 'by' and its step")
        for first in range(first + step, end + 1, step):
            self.put(first.to_bytes(width, "little"))
        return first

    def add(self, words, world, lenient):
        width, last, rest = None, None, list(words)
        while rest:
            word = rest.pop(0)
            if isinstance(word, Text):
                self.put(word)
            elif width == "hex" and hex_of(word) is not None:
                self.put(hex_of(word))
            elif word[:1].isdigit():
                if width not in WIDTHS:
                    raise ValueError(f"'{word}' is not a piece: a number stands behind u8, u16, u32 or u64")
                last = number_of(word)
                self.put(last.to_bytes(WIDTHS[width], "little"))
            elif word == "hex" or word in WIDTHS:
                width, last = word, None
            elif word == "memory":
                self.kind = word
            elif word == "to" and last is not None:
                last = self.put_run(last, rest, WIDTHS[width])
            else:
                self.add_keyword(word, rest, world, lenient)


def lines_of(path, may_include=True):
    """The words of each line of a file, and of those that it includes, with their places."""
    try:
        with open(path, encoding="utf-8") as file:
            lines = file.read().split("\n")
    except OSError as error:
        raise files.Wrong(f"{path}: {error.strerror}") from error
    for number, line in enumerate(lines, 1):
        place = f"{os.path.basename(path)}:{number}"
        try:
            words = words_of(line)
        except (ValueError, KeyError) as why:
            raise files.Wrong(f"{place}: {why}") from why
        if words[:1] == ["include"] and len(words) == 2 and may_include:
            yield from lines_of(f"{os.path.dirname(path)}/{words[1]}", may_include=False)
        else:
            yield words, place
