"""What the other tools know of the files in specs/: the definitions of each, and where the names in it come from."""
import pathlib
import re

TOP = pathlib.Path(__file__).resolve().parent.parent
CRATES = TOP / "crates"
DEFINITION = re.compile(r"^\s*(?:abbrev |unfoldable )*pub (?:record |data |mutual )?([A-Za-z_][A-Za-z0-9_-]*)(?: :| [({])", re.M)
# Definitions that cite each other, which stand indented below one line.
MUTUAL = re.compile(r"^abbrev mutual\n((?:  .*\n|\n)*)", re.M)
IMPORT = re.compile(r"use Rattle\.([a-z_]+)\.specs\.([A-Za-z.]+)\.\{([^}]*)\}")


def words(text):
    return set(re.findall(r"[A-Za-z_][A-Za-z0-9_-]*", text))


def is_field(text):
    line = text.lstrip("\n").split("\n")[0]
    return re.match(r"(  |    )pub (?!record |data )", line) is not None and ":" in line


def definitions_in(path):
    """The text of each definition of a file. A field of a record belongs to the text of its record."""
    text = re.sub(r"--.*", "", path.read_text())
    text = MUTUAL.sub(lambda block: re.sub(r"^  ", "", block.group(1), flags=re.M), text)
    starts = [(m.start(), m.group(1)) for m in DEFINITION.finditer(text) if not is_field(text[m.start() :])]
    ends = [start for start, _ in starts[1:]] + [len(text)]
    return {name: text[start:end] for (start, name), end in zip(starts, ends)}


def imported(text):
    """For each name that a text brings in from a specs/ folder, the file that defines it and its name there."""
    found = {}
    for crate, module, names in IMPORT.findall(text):
        for name in names.split(","):
            there, _, here = name.strip().partition(" as ")
            found[here.strip() or there] = (f"{crate}/specs/{module.replace('.', '/')}.antt", there)
    return found


def name_of(path):
    """A file by its path below crates/."""
    return path.relative_to(CRATES).as_posix()
