"""`python3 -m mcf_plan`."""
import os
import sys

import _signal

# As in tools/mcf_plan, an interrupt ends the run with its status from here on.
if _signal.getsignal(_signal.SIGINT) is _signal.default_int_handler:
    _signal.signal(_signal.SIGINT, lambda *_: os._exit(130))

from .cli import main  # noqa: E402

sys.exit(main(sys.argv[1:]))
