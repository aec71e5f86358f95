"""Reads and writes Excel workbooks, if openpyxl is installed. A written workbook has a sheet for
each table."""
import decimal
import io

from .faults import bad_table, shown
from .figures import Figure

# The most characters that a column of a written workbook shows.
WIDEST = 40


def is_workbook(data):
    """Whether bytes begin like an Excel workbook or another zip archive."""
    return data[:4] == b"PK\x03\x04"


def openpyxl_for(path):
    """The package that reads and writes workbooks."""
    try:
        import openpyxl
    except ImportError:
        raise bad_table(
            f"{path}: for Excel workbooks Python's openpyxl is needed (Debian: python3-openpyxl);"
            " or save each sheet as CSV UTF-8"
        )
    return openpyxl


def sheets_of(path, data):
    """The sheets of a workbook: their titles with their rows."""
    openpyxl = openpyxl_for(path)
    try:
        values, formulas = (
            openpyxl.load_workbook(io.BytesIO(data), data_only=data_only)
            for data_only in (True, False)
        )
    except Exception as error:  # openpyxl raises exceptions of any kind.
        raise bad_table(
            f"{path}: this can't be read as an Excel workbook: {' '.join(str(error).split())}"
        )
    return [
        (sheet.title, rows_of(f"{path}, sheet {sheet.title}", sheet, formulas[sheet.title]))
        for sheet in values.worksheets
    ]


def rows_of(name, sheet, formulas):
    """The rows of a sheet, as texts and figures."""
    found = []
    for line, (row, asked) in enumerate(
        zip(sheet.iter_rows(values_only=True), formulas.iter_rows()), 1
    ):
        for value, cell in zip(row, asked):
            if value is None and cell.data_type == "f":
                raise bad_table(
                    f"{name}, line {line}: a formula whose value isn't stored,"
                    f" {shown(str(cell.value))}: open the workbook in Excel and save it"
                )
        found.append([text_of_cell(value) for value in row])
    return found


def text_of_cell(value):
    """A cell as text. A number has the fifteen digits of a spreadsheet, so that a sum of tenths is
    exact. A date stays a date, not a number."""
    if value is None:
        return ""
    if isinstance(value, float):
        return Figure(format(decimal.Decimal(format(value, ".15g")).normalize(), "f"))
    if isinstance(value, int) and not isinstance(value, bool):
        return Figure(value)
    return " ".join(str(value).replace(" 00:00:00", "").splitlines()).strip()


def write_workbook(path, sheets):
    """Writes a workbook of titles with heads and rows. Numbers stay numbers, and everything else is
    text, so that nothing is a formula."""
    openpyxl = openpyxl_for(path)
    book = openpyxl.Workbook()
    book.remove(book.active)
    for title, heads, rows in sheets:
        sheet = book.create_sheet(title)
        for line, row in enumerate([heads, *rows], 1):
            for column, value in enumerate(row, 1):
                fill(sheet.cell(line, column), value)
        for cells in sheet.columns:
            lay_out(sheet, cells)
        sheet.freeze_panes, sheet.auto_filter.ref = "A2", sheet.dimensions
    book.save(path)


def lay_out(sheet, cells):
    """Gives a column of a sheet a width, and its numbers the decimals that they have."""
    texts = ["" if cell.value is None else format(cell.value) for cell in cells]
    wide = min(max(map(len, texts)) + 4, WIDEST)
    sheet.column_dimensions[cells[0].column_letter].width = wide
    numbers = [cell for cell in cells if isinstance(cell.value, decimal.Decimal)]
    places = max((-cell.value.as_tuple().exponent for cell in numbers), default=0)
    for cell in numbers:
        cell.number_format = "#,##0" + ("." + "0" * places if places > 0 else "")


def fill(cell, value):
    """Puts a value into a cell."""
    if isinstance(value, (Figure, int)):
        cell.value = decimal.Decimal(str(value))
    elif value:
        cell.value = "".join(c for c in value if c >= " ")
        cell.data_type = "s"
