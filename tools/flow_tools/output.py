"""Standard output as a tool of the command line has it."""
import signal
import sys


def plain_output():
    """Writes UTF-8 whatever the locale says, and ends quietly where the reader of a pipe has gone."""
    sys.stdout.reconfigure(encoding="utf-8")
    signal.signal(signal.SIGPIPE, signal.SIG_DFL)
