"""What is found in a graph file, and how it is said."""
import difflib
from dataclasses import dataclass

from .quoting import quoted, visible


@dataclass(frozen=True)
class Finding:
    """Something that is wrong at an offset of the file.

    `where` names the task, semaphore or module for a reader. `field` and `spot` are the field and the place in the file
    by which the program's own message goes, in its words.
    """

    offset: int
    where: str
    text: str
    field: str = ""
    spot: str = ""
    is_error: bool = True

    def line(self, file, lines):
        """One line, as compilers write it, by which an editor finds the place."""
        line, column = lines.place(self.offset)
        kind = "error" if self.is_error else "warning"
        subject = f"{self.where}: " if self.where else ""
        return f"{visible(str(file))}:{line}:{column}: {kind}: {subject}{self.text}"


def nearest(name, names):
    """'; did you mean "sort"?', if one of the names is close to this one, else nothing."""
    close = difflib.get_close_matches(name.lower(), sorted(set(names)), n=1, cutoff=0.65)
    return f"; did you mean {quoted(close[0])}?" if close else ""


def listed(names):
    """Names in a sentence: a, b and c."""
    names = [str(name) for name in names]
    return names[0] if len(names) == 1 else f"{', '.join(names[:-1])} and {names[-1]}"
