"""A run as a time line by the indexes of its journal, as SVG or as a trace for Chrome."""
import json

from .quoting import label

NOTE = "The axis counts entries of the journal: their order, and no seconds."
COLOURS = ["#cfe0f5", "#d9ecd2", "#fbe7c2", "#e8d9ef", "#d3eceb", "#f6dcdc", "#e6e3cf", "#dcdfe6"]
FAULT = "#e06c5f"

LETTER = 6.3
PADDING = 8
LEFT, RIGHT, TOP = 74, 20, 56
ROW, BAR = 30, 24
NARROWEST, WIDEST = 24, 90
WIDTH = 1200


# ---- SVG

def svg(plan, journal, title):
    """The time line as a picture."""
    names = [task.name for task in plan.top.tasks]
    step = step_of(journal, names)
    rows = journal.lanes() + (1 if journal.drops else 0)
    marks, marks_end = drop_marks(journal, names, step)
    width = max(LEFT + step * journal.length, marks_end, LEFT + LETTER * max(len(NOTE), len(title))) + RIGHT
    height = TOP + rows * ROW + 34
    parts = [heading(title, width, height)]
    parts += [lane_line(number, lane_name(number, journal), width) for number in range(rows)]
    parts += axis(journal.length, step, TOP + rows * ROW)
    parts += [bar(span, names[span.task], step, journal.length) for span in journal.spans]
    return "\n".join([*parts, *marks, "</svg>\n"])


def lane_name(number, journal):
    return "drops" if number == journal.lanes() else f"lane {number + 1}"


def step_of(journal, names):
    """How wide an entry is: so that each name fits into its bar, if the picture stays narrow enough."""
    wanted = [(len(names[span.task]) * LETTER + PADDING) / entries(span, journal.length) for span in journal.spans]
    room = (WIDTH - LEFT - RIGHT) / max(1, journal.length)
    return min(max([NARROWEST, *wanted]), max(NARROWEST, min(WIDEST, room)))


def entries(span, length):
    """How many entries a span takes, from its start to its end; an open one takes all that follow."""
    return (length if span.end is None else span.end + 1) - span.start


def heading(title, width, height):
    return (f'<svg xmlns="http://www.w3.org/2000/svg" width="{width:.0f}" height="{height:.0f}" '
            'font-family="Helvetica,Arial,sans-serif" font-size="11" fill="#333">\n'
            f'<rect width="100%" height="100%" fill="white"/>\n'
            f'<text x="10" y="20" font-size="13" font-weight="bold">{label(title)}</text>\n'
            f'<text x="10" y="38">{NOTE}</text>')


def lane_line(number, name, width):
    y = TOP + number * ROW
    return (f'<text x="10" y="{y + 16}" fill="#667">{name}</text>'
            f'<line x1="{LEFT}" y1="{y + BAR + 3}" x2="{width - RIGHT:.1f}" y2="{y + BAR + 3}" stroke="#e3e6ea"/>')


def axis(length, step, y):
    """The numbers of entries, as many as fit."""
    room = LETTER * len(str(length)) + 10
    every = next(number for number in (1, 2, 5, 10, 20, 50, 100, 200, 500, 1_000) if number * step >= room)
    marks = [mark(index, LEFT + (index + 0.5) * step, y) for index in range(0, length, every)]
    return [f'<text x="10" y="{y + 18}" fill="#667">entry</text>', *marks]


def mark(index, x, y):
    return (f'<line x1="{x:.1f}" y1="{y}" x2="{x:.1f}" y2="{y + 5}" stroke="#889"/>'
            f'<text x="{x:.1f}" y="{y + 18}" text-anchor="middle" fill="#667">{index}</text>')


def bar(span, name, step, length):
    x, y, width = LEFT + span.start * step + 1, TOP + span.lane * ROW, entries(span, length) * step - 2
    colour = FAULT if span.fault else COLOURS[span.task % len(COLOURS)]
    dashes = ' stroke-dasharray="4 3"' if span.end is None else ""
    shape = f'x="{x:.1f}" y="{y}" width="{width:.1f}" height="{BAR}" rx="3" fill="{colour}" stroke="#44546a"{dashes}'
    middle = f'x="{x + width / 2:.1f}" y="{y + 16}" text-anchor="middle"'
    return (f"<g><title>{label(told(span, name))}</title><rect {shape}/>"
            f"<text {middle}>{label(fitting(name, width))}</text></g>")


def fitting(name, width):
    """As much of a name as a bar of this width has room for."""
    room = int((width - 4) / LETTER)
    if len(name) <= room:
        return name
    return f"{name[:room - 1]}…" if room > 1 else ""


def told(span, name):
    """What the picture says of a span where the mouse rests on it."""
    inputs = "" if span.inputs == "-" else f" with the values of entries {span.inputs}"
    if span.end is None:
        return f"{name}: starts at entry {span.start}{inputs}, and doesn't end"
    done = "ends, its work was a run of its own," if span.is_inner else "ends"
    how = f"faults ({span.fault})" if span.fault else done
    return f"{name}: starts at entry {span.start}{inputs}, {how} at entry {span.end}"


def drop_marks(journal, names, step):
    """A mark for each drop, with its task's name where there is room, and where the last one ends."""
    marks, end = [], 0
    following = [drop.index for drop in journal.drops[1:]] + [None]
    for drop, after in zip(journal.drops, following):
        x, name = LEFT + (drop.index + 0.5) * step, f"{names[drop.task]} ({drop.why})"
        size = LETTER * len(name) + 14
        has_room = after is None or size <= (after - drop.index) * step
        marks.append(drop_mark(drop, name, has_room, x, TOP + journal.lanes() * ROW))
        end = x + size
    return marks, end


def drop_mark(drop, name, has_room, x, y):
    text = f'<text x="{x + 9:.1f}" y="{y + 14}">{label(name)}</text>' if has_room else ""
    return (f"<g><title>{label(name)}: dropped at entry {drop.index}</title>"
            f'<path d="M{x - 5:.1f} {y + 4} l10 0 l-5 9 z" fill="{FAULT}"/>{text}</g>')


# ---- Chrome

def chrome(plan, journal, title):
    """The time line as a trace for chrome://tracing and Perfetto: an entry of the journal counts as a microsecond."""
    names = [task.name for task in plan.top.tasks]
    lanes = [named("thread_name", lane, f"lane {lane + 1}") for lane in range(journal.lanes())]
    spans = [slice_of(span, names[span.task], journal.length) for span in journal.spans]
    drops = [{"name": f"{names[drop.task]} dropped", "ph": "i", "s": "p", "ts": drop.index, "pid": 0, "tid": 0,
              "args": {"why": drop.why}} for drop in journal.drops]
    events = [named("process_name", 0, f"{title} ({NOTE})"), *lanes, *spans, *drops]
    return json.dumps({"traceEvents": events, "otherData": {"clock": NOTE}}, ensure_ascii=False, indent=1) + "\n"


def named(what, lane, name):
    return {"name": what, "ph": "M", "pid": 0, "tid": lane, "args": {"name": name}}


def slice_of(span, name, length):
    return {"name": name, "ph": "X", "ts": span.start, "dur": entries(span, length), "pid": 0, "tid": span.lane,
            "args": {"what": told(span, name)}, **({"cname": "terrible"} if span.fault else {})}
