"""The commands `flow` and `pairs`. They read tables and write a folder of results."""
import re

from . import asked, flowpage, groups, life, notes, pairs, pairspage, picture, report, scene, sums
from .answer import answer_to, cell_at
from .bottlenecks import Blocked
from .caption import caption_of
from .faults import Faults, Stop
from .folder import results_in
from .page import Writer
from .periods import problem_of
from .problem import Plan
from .programs import program
from .results import Results
from .roster import Roster
from .tables import head_in, tables_of
from .told import NEEDED, Teller

# The tables of each command; those of groups may be left out.
TABLES = {"flow": ("places", "routes"), "pairs": ("costs", "groups")}


class Asking:
    """The tables of a run, and what `mcfplan` answers to them."""

    def __init__(self, options, reading):
        self.command, self.options, self.reading = options.command, options, reading
        self.words, self.faults = TABLES[self.command], Faults()
        if self.command == "pairs":
            self.words = self.words[: len(options.tables)]
        with life.doing("reads the tables"):
            wanted = [NEEDED[word] for word in self.words]
            self.tables = tables_of(options.tables, wanted, reading, self.faults)
        self.heads = [head_in(self.tables, column) for column in reading.fill_down]
        self.program, self.decimal = program("mcfplan", options.programs), options.decimal
        # A number of a sheet has a point, unless the options name another mark.
        if not self.decimal and any(
            "." in cell for one in self.tables for cell in one.figures.values()
        ):
            self.decimal = "."

    def untold(self, *more):
        """The answer to the tables with further options, whose faults aren't told."""
        more = ["--decimal", self.decimal, *more] if self.decimal else more
        more = ["--fill-down", "\n".join(self.heads), *more] if self.heads else more
        texts = {word: table.text for word, table in zip(self.words, self.tables)}
        found = answer_to(self.program, [self.command, *more], texts)
        self.stop_at_lacking(found)
        lists, sheets = ({row[0] for row in found.rows[kind]} for kind in ("list", "wishes"))
        for word, table in zip(self.words, self.tables):
            if word in lists:
                table.become_matrix(found.sheets[word])
            elif word in sheets:
                table.become_wishes(found.sheets[word])
            elif word in found.sheets:
                found.sheets[word].narrow(table.width)
            table.changes = notes.changed_lines(word, table, found, self.columns())
        return found

    def columns(self):
        """The columns to fill down as the user names them, by their heads in lower case."""
        return {head.lower(): one for head, one in zip(self.heads, self.reading.fill_down)}

    def stop_at_lacking(self, found):
        """Ends the run if no table has a column to fill down."""
        lacking = [
            int(number)
            for table, number, what, *_ in found.rows["fault"]
            if (table, what) == ("options", "fill down")
        ]
        if lacking:
            names = [self.reading.fill_down[number - 1] for number in lacking]
            raise Stop("\n".join(f"--fill-down {one}: there is no such column" for one in names), 2)

    def answer(self, *more):
        """The answer to the tables with further options. Ends the run if they have faults."""
        found = self.untold(*more)
        Teller(self.words, self.tables, self.options, self.faults).tell(found)
        self.faults.end(notes.prepared_lines(self.tables))
        return found

    def planned(self):
        """The answer to the tables with the options of the run."""
        options = self.options
        if self.command == "pairs":
            words = ["--each", options.each] if options.each else []
            words += ["--crossing", options.crossing] if options.crossing else []
            return self.answer(*words, *(["--maximise", "yes"] if options.maximise else []))
        if options.penalty is not None:
            self.settle()
        words = policy_words(options.unused, options.short, options.penalty)
        return self.answer(*words, *(["--ranges", "yes"] if options.ranges else []))

    def write(self, folder):
        """Writes answer.csv, and asked.json, and returns the answer."""
        found = self.planned()
        (folder / "answer.csv").write_bytes(found.data)
        asked.note(folder, self, found.data)
        return found

    def settle(self):
        """Settles the mark of a penalty, which is written as in the tables."""
        penalty, mark = self.options.penalty, re.search("[.,]", self.options.penalty)
        is_number = re.fullmatch("[0-9]{1,18}([.,][0-9]{1,18})?", penalty)
        is_either = re.fullmatch("[1-9][0-9]{0,2}[.,][0-9]{3}", penalty)
        if is_number and mark and not self.decimal:
            self.decimal = self.answer().shown_mark or (None if is_either else mark[0])
        if not is_number or (mark and mark[0] != self.decimal):
            told = f"--penalty {penalty}: this is no cost, written as in the tables"
            if is_number and self.decimal and not is_either:
                told += f": write {penalty.replace(mark[0], self.decimal)}"
            raise Stop(told, 2)


def policy_words(unused, short, penalty):
    """The options of `mcfplan` for what may stay and be missing."""
    words = ["--unused", "allow"] if unused else []
    words += ["--short", "allow"] if short else []
    return words + (["--penalty", penalty] if short and penalty else [])


def check_most_flow(problem, options):
    """Refuses penalties of places beside --most-flow: by them, less than the most may flow."""
    sheet = problem.place_sheet
    if options.most_flow and any(cell_at(row, sheet.place("penalty")) for _, row in sheet.rows):
        told = "--most-flow: places have penalties, by which less than the most may flow: leave out"
        raise Stop(f"{told} the column penalty, or say --unused allow --short allow", 2)


def flow_command(options, reading):
    """Runs `flow`: returns the lines of the summary and the status."""
    if options.penalty is not None and options.short != "allow":
        raise Stop(f"--penalty {options.penalty}: it comes with --short allow", 2)
    options.unused = options.unused == "allow" or options.most_flow
    options.short = options.short == "allow" or options.most_flow
    asking = Asking(options, reading)

    def answer(unused, short):
        return asking.untold(*policy_words(unused, short, options.penalty))

    with results_in(options.folder) as folder:
        found = asking.write(folder)
        problem = problem_of(found, asking.tables, options)
        check_most_flow(problem, options)
        life.warn(report.slips(problem))
        columns = sums.columns_named(options.by, sums.tables_of(problem))
        results = Results(folder, options, problem.mark, asking.tables)
        if found.kind == "plan":
            lines = plan_results(Plan(problem), results, options, columns)
        else:
            lines = blocked_results(Blocked(problem, answer), results, options)
    return lines + notes.notes_of(problem), 0 if found.kind == "plan" else 1


def plan_results(plan, results, options, columns):
    """Writes the results of a plan, with sums by these columns, and returns the summary."""
    problem, folder = plan.problem, results.folder
    caption = caption_of(options, problem.place_table, problem.route_table)
    report.write_flows(results, plan)
    report.write_prices(results, plan)
    report.write_stock(results, plan)
    found = sums.flow_sums(plan, columns)
    results.table("sums", problem.place_table, problem.place_sheet, *sums.flow_table(found))
    results.finish()
    drawn = drawn_in(folder, scene.plan_scenes(plan, caption), options)
    page = flowpage.plan_page(plan, options, drawn, found)
    write_page(folder, page, problem.mark, caption)
    return report.flow_summary(plan)


def blocked_results(blocked, results, options):
    """Writes the reasons why there is no plan, and returns the summary."""
    folder, problem = results.folder, blocked.problem
    caption = caption_of(options, problem.place_table, problem.route_table)
    report.write_bottlenecks(results, problem, blocked.all())
    results.finish()
    drawn = drawn_in(folder, [scene.blocked_scene(blocked, caption)], options)
    write_page(folder, flowpage.blocked_page(blocked, options, drawn), problem.mark, caption)
    return report.blocked_summary(blocked)


def drawn_in(folder, scenes, options):
    """Draws and writes the pictures, unless the options say not to: plan.svg, or plan-1.svg and so
    on if there are several."""
    if options.no_picture:
        return []
    with life.doing("draws the picture"):
        drawn = picture.svgs_of(scenes)
    for number, text in enumerate(drawn, 1):
        name = f"plan-{number}.svg" if len(drawn) > 1 else "plan.svg"
        (folder / name).write_text(text, encoding="utf-8")
    return drawn


def write_page(folder, page, mark, caption):
    """Writes report.html."""
    with life.doing("writes the page"):
        text = Writer(folder, mark, caption).html(page)
        (folder / "report.html").write_text(text, encoding="utf-8")


def pairs_command(options, reading):
    """Runs `pairs`: returns the lines of the summary and the status."""
    if options.crossing and not options.groups:
        raise Stop(f"--crossing {options.crossing}: it comes with --groups FILE", 2)
    options.tables = [*options.tables, *filter(None, [options.groups])]
    asking = Asking(options, reading)
    with results_in(options.folder) as folder:
        found = asking.write(folder)
        roster = Roster(found, asking.tables, options)
        columns = sums.pair_columns(options.by, roster)
        results = Results(folder, options, roster.mark, asking.tables)
        if found.kind == "plan":
            pairs.write_pairs(results, roster)
            groups.write_groups(results, roster)
            found_sums = sums.pair_sums(roster, columns)
            heads, rows = sums.pair_table(found_sums)
            results.table("sums", roster.table, roster.sheet, heads, rows)
            lines, page = pairs.summary(roster), pairspage.plan_page(roster, options, found_sums)
        else:
            pairs.write_bottlenecks(results, roster)
            lines, page = pairs.blocked_lines(roster), pairspage.blocked_page(roster, options)
        results.finish()
        write_page(folder, page, roster.mark, caption_of(options, *asking.tables))
    return lines + pairs.notes_of(roster), 0 if found.kind == "plan" else 1
