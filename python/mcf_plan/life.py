"""Warnings, and a sign of life if standard error is a terminal."""
import contextlib
import sys
import threading
import time


def warn(lines):
    """Prints warnings on standard error, if possible."""
    for line in lines if sys.stderr else ():
        with contextlib.suppress(OSError):
            print(f"mcf_plan: warning: {line}", file=sys.stderr, flush=True)


@contextlib.contextmanager
def doing(what):
    """Prints the current work and its seconds, after the first second."""
    if not sys.stderr or not sys.stderr.isatty():
        yield
        return
    done, begun = threading.Event(), time.monotonic()
    teller = threading.Thread(target=tell, args=(what, done, begun), daemon=True)
    teller.start()
    try:
        yield
    finally:
        done.set()
        teller.join()


def tell(what, done, begun):
    """Prints the current work each second, and erases it at the end."""
    while not done.wait(1):
        sys.stderr.write(f"\rmcf_plan: {what} .. {time.monotonic() - begun:.0f} s\033[K")
        sys.stderr.flush()
    sys.stderr.write("\r\033[K")
    sys.stderr.flush()
