"""The caption above a page and a picture: the title, the date of the run, the tables that it read,
and the units of numbers."""
import collections
import datetime
import os

from .faults import Stop
from .figures import figure, grouped
from .words import line_of

# The title of the option, or none; the date and the tables; the units of costs and of amounts.
Caption = collections.namedtuple("Caption", "title source currency unit")


def caption_of(options, *tables):
    """The caption of a run."""
    names = dict.fromkeys(os.path.basename(table.name) for table in tables)
    source = line_of(f"{date_of_run()}: {', '.join(names)}")
    return Caption(options.title or "", source, options.currency, options.unit)


def date_of_run():
    """The date of the run, or the date of the variable SOURCE_DATE_EPOCH, which is in seconds."""
    seconds = os.environ.get("SOURCE_DATE_EPOCH")
    if not seconds:
        return datetime.date.today().isoformat()
    try:
        return (
            datetime.datetime.fromtimestamp(int(seconds), datetime.timezone.utc).date().isoformat()
        )
    except (ValueError, OverflowError, OSError):
        raise Stop(f"SOURCE_DATE_EPOCH={seconds}: this is no date in seconds since 1970", 2)


def shown_number(problem, value, unit=""):
    """A number as pages show it, with narrow spaces between thousands and with its unit, if one was
    given; an empty text if there is no limit."""
    number = grouped(figure(value), problem.mark)
    return f"{number} {unit}" if unit and number else number
