"""Rows of a sheet that are bad, set aside into a file of the same form: it is mended there, and loaded in its turn."""

import csv
import io
import pathlib

from companions import connection, pages, sheets


def causes_of(sheet: sheets.Sheet, line: int) -> str:
    """What is wrong with a row, in one cell."""
    those = sorted((it for it in sheet.faults if it.line == line), key=lambda it: it.column)
    return "; ".join(f"{it.name}: {it.words}" if it.column else it.words for it in those)


def text_of(sheet: sheets.Sheet) -> str:
    """The lines before the header as they stand, the header, and the bad rows, each with its line and what is wrong."""
    is_second = sheets.is_set_aside(sheet.header)
    names = sheet.header if is_second else (*sheet.header, *sheets.ASIDE)
    written = io.StringIO(newline="")
    written.write(sheet.before)
    writer = csv.writer(written, delimiter=sheet.delimiter)
    writer.writerow(map(pages.harmless, names))
    for line, fields in sheet.bad_rows().items():
        own = fields[: -len(sheets.ASIDE)] if is_second and len(fields) == len(names) else fields
        padding = ("",) * (len(names) - len(sheets.ASIDE) - len(own))
        writer.writerow(map(pages.harmless, (*own, *padding, str(line), causes_of(sheet, line))))
    return written.getvalue()


def set_aside(sheet: sheets.Sheet, out: pathlib.Path) -> int:
    """Writes the bad rows, and gives their number. Faulty if something is wrong that is of no row."""
    bad = sheet.bad_rows()
    if whole := [it for it in sheet.faults if it.line not in bad]:
        raise sheets.Faulty(sheet.path, whole)
    if out.exists() and out.samefile(sheet.path):
        raise sheets.Wrong(f"{out} is the sheet itself: name another file for its bad rows")
    try:
        pages.write(text_of(sheet), out, sheet.mapping.encoding)
    except OSError as error:
        raise connection.Trouble(f"{out}: {error.strerror}: nothing was loaded") from error
    return len(bad)
