"""Texts of a file in messages and pictures: what can't be seen in them is written as in JSON."""
import html
import json
import re

# Control characters, line and paragraph separators, marks that turn the direction of writing, and what XML 1.0 has not.
UNSEEN = re.compile("[\x00-\x1f\x7f-\x9f\u2028-\u202e\u2066-\u2069\ud800-\udfff\ufffe\uffff]")
# A sign of a text in quotes; an escape is one.
SIGN = re.compile(r"\\u[0-9a-f]{4}|\\.|.", re.DOTALL)


def visible(text: str) -> str:
    """A text on one line, with what can't be seen as \\uXXXX."""
    return UNSEEN.sub(lambda match: f"\\u{ord(match.group()):04x}", text)


def shortened(text: str, longest: int) -> str:
    """A text cut short if it is longer than this: its first signs, three dots and its last character."""
    if len(text) <= longest:
        return text
    kept = ""
    for sign in SIGN.finditer(text):
        if len(kept) + len(sign.group()) > longest - 4:
            break
        kept += sign.group()
    return f"{kept}...{text[-1]}"


def quoted(text: str, longest: int = 80) -> str:
    """A text in quotes on one line, cut short if it is long; the name of a task, semaphore or module never is."""
    return shortened(visible(json.dumps(text, ensure_ascii=False)), longest)


def label(text: str) -> str:
    """A text as a label in HTML or XML."""
    return html.escape(visible(text))
