"""Waits for calls of the library, which signals and time limits can end early."""
import _thread
import sys
import threading
import time
from contextlib import contextmanager
from contextvars import ContextVar
from typing import Any, Callable, Iterator, List, NamedTuple, Optional

from ._errors import TimeLimit

# How long to wait before looking at the limit, and letting signals take effect, again.
TURN = 0.05


class Limit(NamedTuple):
    """How long to wait: the seconds of the block that ends first, the moments of the monotonic
    clock at which the inner block began and at which that one ends, and a function to call
    meanwhile, with the seconds since the former."""

    seconds: float
    begun: float
    end: float
    progress: Optional[Callable[[float], Any]]

    def look(self) -> None:
        """Calls the function, and raises TimeLimit after the end."""
        now = time.monotonic()
        if self.progress is not None:
            self.progress(now - self.begun)
        if now >= self.end:
            raise TimeLimit(self.seconds)


_limit: "ContextVar[Optional[Limit]]" = ContextVar("mcf_time_limit", default=None)


@contextmanager
def time_limit(
    seconds: float = float("inf"), *, progress: Optional[Callable[[float], Any]] = None
) -> Iterator[None]:
    """Limits how long the calls of this package inside a `with` block may take together.

    When the time is up, the call that runs raises TimeLimit, and so does each later one inside the
    block that asks the library for a large problem. Work that the library has begun continues in
    the background until it ends, and uses a processor and its memory until then.

    Parameters
    ----------
    seconds : float
        The time for all calls together, from the beginning of the block; without limit by default.
    progress : callable, optional
        A function that is called about twenty times a second while the library works, with the
        seconds since the beginning of the block. What it raises ends the call.

    Raises
    ------
    TimeLimit
        The time is up. It is a TimeoutError, too.
    ValueError
        The time isn't above 0.

    Examples
    --------
    >>> import mcf
    >>> with mcf.time_limit(10):
    ...     r = mcf.solve([1, -1], [(0, 1, 5, 3)])
    >>> r.cost
    3
    """
    if not seconds > 0:
        raise ValueError("a time limit is above 0 seconds")
    begun = time.monotonic()
    limit, outer = Limit(seconds, begun, begun + seconds, progress), _limit.get()
    if outer is not None and outer.end < limit.end:
        limit = limit._replace(seconds=outer.seconds, end=outer.end)
    token = _limit.set(limit)
    try:
        yield
    finally:
        _limit.reset(token)


def _run(function: Any, words: Any, kept: Any, ended: List[Any], done: Any) -> None:
    """Calls the library in a thread. `kept` keeps alive what the call reads and writes."""
    try:
        ended.append((function(*words), None))
    except BaseException as error:
        ended.append((None, error))
    finally:
        done.release()


def _needs_no_thread(limit: Optional[Limit]) -> bool:
    """Whether nothing can end a call early, or no thread should start."""
    is_main = _thread.get_ident() == threading.main_thread().ident
    return (not is_main and limit is None) or sys.is_finalizing() or _thread.stack_size() != 0


def called(function: Any, words: Any, kept: Any) -> Any:
    """Runs a long call of the library so that a signal or a time limit can end it, and returns its
    result.

    Python handles signals in the main thread, between bytecode instructions. So if the caller is
    the main thread, or has a limit, the call runs in another thread, and an exception that a
    handler or the limit raises takes effect at once. The call then runs to its end in its thread.
    Until then the thread keeps the memory that the call reads and writes, and nobody else uses it.
    """
    limit = _limit.get()
    if limit is not None:
        limit.look()
    if _needs_no_thread(limit):
        return function(*words)
    ended: List[Any] = []
    done = _thread.allocate_lock()
    done.acquire()
    try:
        _thread.start_new_thread(_run, (function, words, kept, ended, done))
    except RuntimeError:
        # No thread can start, for example while the interpreter shuts down.
        return function(*words)
    while not done.acquire(True, TURN):
        if limit is not None:
            limit.look()
    answer, error = ended[0]
    if error is not None:
        raise error
    return answer
