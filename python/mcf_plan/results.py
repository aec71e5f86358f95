"""Writes the tables of results: as CSV in the format of the input, and as a workbook if the input
is one or the options request one."""
import csv

from .figures import Figure
from .tables import SEPARATORS
from .workbook import openpyxl_for, write_workbook

FORMULA = ("=", "+", "-", "@", "\t", "\r")
# The heads of results, in groups.
FLOW_RESULTS = ("carries", "total", "free", "one_more_saves", "exact", "one_more_carried_costs")
RANGE_RESULTS = ("cost_may_fall_to", "cost_may_rise_to")
ROOM_RESULTS = ("one_more_saves_for",)
PLACE_RESULTS = ("one_more_costs", "group")
SUPPLY_RESULTS = ("more_costs", "more_costs_for")
THROUGH_RESULTS = (
    "passes",
    "passing_costs",
    "free",
    "one_more_saves",
    "exact",
    "one_more_passing_costs",
)
# The periods of what a route carries, and the period in which a place is.
ROUTE_PERIODS = ("departs_in", "arrives_in")
PLACE_PERIODS = ("in_period",)
GROUPS = (
    FLOW_RESULTS,
    RANGE_RESULTS,
    ROOM_RESULTS,
    PLACE_RESULTS,
    SUPPLY_RESULTS,
    THROUGH_RESULTS,
    ROUTE_PERIODS,
    PLACE_PERIODS,
)
# The heads of the table of what places keep.
STOCK = (
    "name",
    "period",
    "next_period",
    "keeps",
    "total",
    "free",
    "one_more_saves",
    "exact",
    "one_more_kept_costs",
)


def kept(sheet, groups=GROUPS):
    """The places of the columns that results keep: all except groups of earlier results, if the
    table has a group completely."""
    gone = {head for heads in groups if sheet.has(heads) for head in heads}
    return [place for place, head in enumerate(sheet.heads) if head not in gone]


class Results:
    """The tables of a folder. Each is written like the text of a table, which is a sheet of the
    answer, too."""

    def __init__(self, folder, options, mark, tables):
        self.folder, self.mark, self.guards_formulas = folder, mark, options.guard_formulas
        self.sheets = [] if options.xlsx or any(table.book for table in tables) else None

    def table(self, name, like, sheet, heads, rows):
        """Writes a table with the separator and the byte-order mark, if any, of another."""
        rows, separator = list(rows), like.separator(sheet)
        with open(
            self.folder / f"{name}.csv",
            "w",
            newline="",
            encoding="utf-8-sig" if like.has_mark else "utf-8",
        ) as output:
            if separator not in SEPARATORS:
                output.write(f"sep={separator}\n")
            writer = csv.writer(output, delimiter=separator, lineterminator="\n")
            writer.writerows([self.cell(value) for value in row] for row in [heads, *rows])
        if self.sheets is not None:
            self.sheets.append((name, heads, rows))

    def after(self, name, like, sheet, groups, rows):
        """Writes a table with the columns of another, followed by groups of results. Each row has a
        line and the cells of both."""
        places = kept(sheet, [*groups, RANGE_RESULTS, ROOM_RESULTS, SUPPLY_RESULTS])
        heads = [like.title(sheet.titles[place]) for place in places]
        heads += [head for group in groups for head in group]
        self.table(
            name,
            like,
            sheet,
            heads,
            (
                [like.cell(line, cells, place) for place in places] + more
                for line, cells, more in rows
            ),
        )

    def cell(self, value):
        """A cell, escaped for CSV."""
        if isinstance(value, Figure):
            return value.replace(".", self.mark)
        if (
            self.guards_formulas
            and isinstance(value, str)
            and value.startswith(FORMULA)
            and not value[1:].replace(".", "").replace(",", "").isdigit()
        ):
            return "'" + value
        return value

    def finish(self):
        """Writes the workbook, if there is one."""
        if self.sheets:
            write_workbook(self.folder / "plan.xlsx", self.sheets)

    @staticmethod
    def check(path):
        """Ends the run if a workbook is requested and can't be written."""
        openpyxl_for(path)
