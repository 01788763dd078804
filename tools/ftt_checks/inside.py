"""Calls of tools/fttlog inside the process of a check."""
import contextlib
import io
import sys

from ftt import log as fttlog


def told(*words, log=None):
    """The output, the message and the status of fttlog, with this text for standard input."""
    out, err, status = io.StringIO(), io.StringIO(), 0
    kept = sys.argv, sys.stdin
    sys.argv, sys.stdin = ["fttlog", *map(str, words)], io.StringIO(log or "")
    try:
        with contextlib.redirect_stdout(out), contextlib.redirect_stderr(err):
            fttlog.main()
    except SystemExit as end:
        status = end.code or 0
        if isinstance(status, str):
            err.write(status + "\n")
            status = 1
    finally:
        sys.argv, sys.stdin = kept
    return out.getvalue(), err.getvalue(), status
