"""Problems over periods: their places in each period, what departs in each, and what places keep
from one to the next. First stock is there in a period before the named ones, and last stock is left
in one after them."""
import collections

from .answer import cell_at
from .problem import ENDS, NO, Problem, Route, Step, route_result, told_in_turn

KEEP_HEADS = ("keep most", "keep cost")
# The heads of stock, by which the answer calls the periods before and after those that are named.
FIRST, LAST = "first stock", "last stock"
# A period: its name, the named period whose rows hold in it, and the head of the stock of which it
# is, empty for a named period.
Period = collections.namedtuple("Period", "name rows stock")


def problem_of(answer, tables, options):
    """The places and the routes of an answer, over periods if its places have a column of them."""
    has_periods = answer.sheets["places"].place("period") is not None
    return (PeriodProblem if has_periods else Problem)(answer, tables, options)


class PeriodProblem(Problem):
    """The places and the routes of an answer over periods: each place in each period, and each
    route in each period in which it departs."""

    def all_places(self):
        """The places in the period before those that are named, if there is first stock, then in
        the first period, in the second, and so on, and in the period after, if there is last
        stock."""
        sheet, rows, places, periods = self.place_sheet, {}, {}, {}
        for line, cells in sheet.rows:
            name, period = (cell_at(cells, sheet.place(head)) for head in ("name", "period"))
            rows[name, period] = line, cells
            places.setdefault(name, (line, cells))
            periods.update({period: None} if period else {})
        self.periods, self.rows = list(periods), rows
        self.names = {name: number for number, name in enumerate(places, 1)}
        self.times = [Period(period, period, "") for period in periods]
        self.times[:0] = [Period(FIRST, self.periods[0], FIRST)] * self.has_stock(FIRST)
        self.times += [Period(LAST, self.periods[-1], LAST)] * self.has_stock(LAST)
        return [
            self.place_in(name, period, first)
            for period in self.times
            for name, first in places.items()
        ]

    def has_stock(self, head):
        """Whether a row of places has first stock, or last stock."""
        sheet = self.place_sheet
        return any(self.number(sheet, cells, head) for _, cells in sheet.rows)

    def row_of(self, name, period):
        """The row that holds for a place in a period, or None."""
        return self.rows.get((name, period.rows), self.rows.get((name, "")))

    def place_in(self, name, period, first):
        """A place in a period. Where no row holds, it sends and takes nothing; `first` is the row
        that names it first. Its stock has no bounds, and no penalty but that of a last stock."""
        row, sheet = self.row_of(name, period), self.place_sheet
        line, cells = row or (first[0], [name if head == "name" else "" for head in sheet.heads])
        place = self.place(line, cells)._replace(period=period.name, is_stock=bool(period.stock))
        if not row:
            place = place._replace(spot=self.spot(first[1]))
        last = self.number(sheet, cells, LAST)
        if period.stock:
            supply = -last if period.stock == LAST else self.number(sheet, cells, FIRST)
            penalty = place.penalty if supply < 0 else None
            return place._replace(supply=supply, bounds=None, penalty=penalty)
        is_of_stock = period.name == self.periods[-1] and last and place.supply > 0
        return place._replace(penalty=None) if is_of_stock else place

    def all_routes(self):
        """The departures. Notes what places may keep, too."""
        self.stores = list(self.all_stores())
        return [route for row in self.route_sheet.rows for route in self.departures(*row)]

    def number_at(self, name, time):
        """The number of a place in a period, which has this place among the periods."""
        return len(self.names) * time + self.names[name]

    def all_stores(self):
        """What places may keep from each period to the next, as routes: first and last stock
        without limit and for nothing, and all else as their rows say."""
        sheet = self.place_sheet
        for time, (period, after) in enumerate(zip(self.times, self.times[1:])):
            for name in self.names:
                ends = self.number_at(name, time), self.number_at(name, time + 1)
                line, cells = self.row_of(name, period) or (self.places[ends[0] - 1].line, [])
                if period.stock or after.stock:
                    step = Step(None, 0)
                elif any(cell_at(cells, sheet.place(head)) for head in KEEP_HEADS):
                    most = self.limit(sheet, cells, KEEP_HEADS[0])
                    step = Step(most, self.number(sheet, cells, KEEP_HEADS[1]))
                else:
                    continue
                yield Route(*ends, 0, (step,), False, line, cells, period.name, after.name)

    def departures(self, line, cells):
        """The departures of a row of routes, in both directions if it is used both ways."""
        sheet = self.route_sheet
        names = [cell_at(cells, sheet.place(head)) for head in ENDS]
        own, lead = cell_at(cells, sheet.place("period")), int(self.number(sheet, cells, "lead"))
        both = cell_at(cells, sheet.place("both")).casefold() not in NO
        begin = int(bool(self.times[0].stock))
        for time, (period, arrival) in enumerate(zip(self.periods, self.periods[lead:]), begin):
            if own in ("", period):
                for is_back in (False, True)[: 1 + both]:
                    tail, head = names[:: -1 if is_back else 1]
                    ends = self.number_at(tail, time), self.number_at(head, time + lead)
                    yield self.route(*ends, False, line, cells)._replace(
                        cells=self.turned(cells) if is_back else cells,
                        departs=period,
                        arrives=arrival,
                        is_back=is_back,
                    )

    def turned(self, cells):
        """The cells of a route that goes back: its ends in turn."""
        places, found = [self.route_sheet.place(head) for head in ENDS], list(cells)
        found[places[0]], found[places[1]] = cells[places[1]], cells[places[0]]
        return found

    def route_results(self):
        """The results of the departures of a plan."""
        rows = (
            ((line, tail, head, cells[6], word == "back"), route_result(cells))
            for word in ("route", "back")
            for line, tail, head, *cells in self.answer.rows[word]
        )
        keys = zip(self.route_keys(), self.routes)
        return told_in_turn(rows, [(*key, route.is_back) for key, route in keys])

    def store_results(self):
        """The results of what places keep in a plan. Of a stock, any amount may be kept: where a
        cost is below 0, it has a limit that no plan fills, which isn't told."""
        rows = (
            ((*cells[:2], cells[8]), route_result(cells[2:])) for cells in self.answer.rows["keep"]
        )
        return [
            result._replace(free=None) if self.is_stock(store) else result
            for store, result in zip(self.stores, told_in_turn(rows, self.store_keys()))
        ]
