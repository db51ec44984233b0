"""Types that a crate keeps to itself, for copies of definitions outside the crate: a struct or enum of Rust as the logic sees it."""
import re

from believed_definitions import CRATES

DECLARED = re.compile(r"Rattle\.(\w+)\.specs\.declared\.([\w.]+)\.(\w+)$")
NUMBERS = ("u8", "u16", "u32", "u64", "u128", "usize")
SIGNED = ("i8", "i16", "i32", "i64", "i128", "isize")
PRELUDE = "use Rattle.std.specs.Prelude.{ℕ, ℤ, Bool, List, Option, Result}"


def own_module(module):
    """The module that has the type: that of its variants has the same."""
    return module[: -len(".TheVariants")] if module.endswith(".TheVariants") else module


def source_of(crate, name):
    """Where a crate declares a type: the words before it, which kind it is, what stands in it, and the module's path."""
    for path in sorted((CRATES / crate / "src").rglob("*.rt")):
        found = re.search(rf"^(pub(?:\(crate\))? )?(struct|enum) {name} \{{\n(.*?)^\}}", path.read_text(encoding="utf8"), re.M | re.S)
        if found:
            where = path.relative_to(CRATES / crate / "src").with_suffix("").parts
            return found[1] or "", found[2], re.sub(r"^\s*(//|#).*\n", "", found[3], flags=re.M), ".".join(where)
    return None


def crate_of(crate, name):
    """The crate that declares a type which this one names: itself, or one that it uses."""
    texts = "".join(path.read_text(encoding="utf8") for path in sorted((CRATES / crate / "src").rglob("*.rt")))
    used = re.findall(rf"^use (\w+)::(?:[^;]*\b)?{name}\b", texts, re.M)
    return next((it for it in [crate, *used] if (CRATES / it).is_dir() and source_of(it, name)), None)


def is_private(module):
    """Whether a module is that of a type which its crate does not export."""
    found = DECLARED.match(own_module(module))
    source = found and source_of(found[1], found[3])
    return bool(source) and source[0] != "pub "


def type_of(text, crate, imports):
    """A type of Rust as the logic has it; the modules of types that it names are put among the imports."""
    text = re.sub(r"&('\w+ )?", "", text.strip())
    many = re.match(r"(Option|Vec)<(.*)>$|\[(.*?)(?:; .*)?\]$", text)
    if text in NUMBERS + SIGNED:
        return "ℕ" if text in NUMBERS else "ℤ"
    if many:
        return f"({'Option' if many[1] == 'Option' else 'List'} {type_of(many[2] or many[3], crate, imports)})"
    owner = crate_of(crate, text) if text.isidentifier() else None
    if owner:
        imports.add(f"use Rattle.{owner}.specs.declared.{source_of(owner, text)[3]}.{text}.{{{text}}}")
    return "Bool" if text == "bool" else text


def stand_in(module):
    """The text of a module with a type like that one."""
    crate, _where, name = DECLARED.match(own_module(module)).groups()
    _before, kind, inside, _path = source_of(crate, name)
    imports = set()
    if kind == "struct":
        rows = re.findall(r"(?:pub(?:\(crate\))? )?(\w+): ([^\n]*?),?\n", inside)
        lines = [f"  pub {field} : {type_of(its, crate, imports)}" for field, its in rows]
        head = f"pub record {name} : Type 0 where"
    else:
        rows = re.findall(r"^    (\w+)(?: \{ (.*?) \}|\((.*?)\))?,?$", inside, re.M)
        fields = [[part.rsplit(": ", 1)[-1] for part in (one or other).split(", ") if part] for _, one, other in rows]
        types = ["".join(f"{type_of(its, crate, imports)} → " for its in parts) for parts in fields]
        lines = [f"  {row[0]} : {its}{name}" for row, its in zip(rows, types)]
        head = f"pub data {name} : Type 0 where"
    return "\n".join([PRELUDE, *sorted(imports), "", head, *lines, ""])
