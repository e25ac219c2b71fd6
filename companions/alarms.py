"""A master alarm database: a sheet with a line for each alarm."""

import dataclasses
import pathlib

from companions import sheets, values

ALARM = ("tag", "latching", "limit")
RECORD = ("cause", "consequence", "action", "severity", "response")
REMARKS = RECORD[:3]
DESCRIBED = ("description", "area")  # of the same sheet, for office describe
COLUMNS = (*ALARM, *RECORD, "unit", *DESCRIBED)
YES, NO = ("yes", "true", "1", "y"), ("no", "false", "0", "n")


@dataclasses.dataclass(frozen=True)
class Wanted:
    """An alarm as the file has it: on which line, and with a record or without."""

    line: int
    tag: str
    latching: bool
    limit: int
    record: values.Record | None

    def says(self) -> tuple[object, ...]:
        """What it says, on whatever line."""
        return self.tag, self.latching, self.limit, self.record


@dataclasses.dataclass(frozen=True)
class Read:
    """The alarms of a unit in a sheet, in the order of the file; the sheet with all that is wrong in it; and what was left out as said before."""

    sheet: sheets.Sheet
    wanted: list[Wanted]
    repeated: list[str]

    def good(self) -> list[Wanted]:
        """Those of which nothing is wrong."""
        bad = {it.line for it in self.sheet.faults}
        return [it for it in self.wanted if it.line not in bad]


def read_alarms(path: pathlib.Path, mapping: sheets.Mapping, unit: str) -> list[Wanted]:
    """The alarms of a unit: of all lines, or if there is a column `unit` of those that name it. Faulty if anything is wrong."""
    found = read(path, mapping, unit)
    found.sheet.check()
    return found.wanted


def read(path: pathlib.Path, mapping: sheets.Mapping, unit: str) -> Read:
    sheet = sheets.read_sheet(path, mapping, ALARM, (*RECORD, "unit"))
    there = [it for it in RECORD if it in sheet.places]
    if there and len(there) < len(RECORD):
        lacking = ", ".join(repr(mapping.header(it)) for it in RECORD if it not in there)
        raise sheets.Faulty(path, [sheets.Fault(1, 0, "", f"a record needs all of its columns: there is no {lacking}"), *sheet.faults])
    found = Read(sheet, [], [])
    before: dict[tuple[str, str], tuple[int, Wanted | None]] = {}
    for row in sheet.rows:
        of_unit = sheet.meant(row, "unit") if "unit" in row.texts else unit
        if not values.UNIT.fullmatch(of_unit):
            sheet.blame(row.line, "unit", f"{sheets.shown(of_unit)} is not a unit's code: 1 to 8 of A to Z and 0 to 9", "not a unit's code")
        wanted = read_row(sheet, row, bool(there))
        key = of_unit, sheet.meant(row, "tag")
        if key in before:
            repeat(found, row, *before[key], wanted)
        elif wanted is not None and of_unit == unit:
            found.wanted.append(wanted)
        before.setdefault(key, (row.line, wanted))
    for number, it in enumerate(found.wanted[values.MAX_ALARMS :], values.MAX_ALARMS + 1):
        words = f"this is alarm {number:,}: a unit has {values.MAX_ALARMS:,} at most"
        sheet.blame(it.line, "tag", words, f"more than {values.MAX_ALARMS:,} alarms")
    return found


def repeat(found: Read, row: sheets.Row, line: int, first: Wanted | None, again: Wanted | None) -> None:
    """A tag that stands there a second time: left out if it says the same, otherwise both are wrong, since nobody knows which is meant."""
    tag = found.sheet.meant(row, "tag")
    if first is not None and again is not None and first.says() == again.says():
        found.repeated.append(f"line {row.line}: {tag} stands on line {line}, too, and says the same: it is taken once")
        return
    found.sheet.blame(row.line, "tag", f"{tag} stands on line {line}, too", "stands twice, and says something else")
    if first is not None:
        found.sheet.blame(line, "tag", f"{tag} stands on line {row.line}, too", "stands twice, and says something else")


def read_row(sheet: sheets.Sheet, row: sheets.Row, has_records: bool) -> Wanted | None:
    """The alarm of a line; what is wrong with it is added to the faults of the sheet."""
    before = len(sheet.faults)
    tag = sheet.meant(row, "tag")
    if not values.TAG.fullmatch(tag):
        sheet.blame(row.line, "tag", f"{sheets.shown(tag)} is not a tag: 1 to 24 of A to Z, 0 to 9, '-', '.' and '_'", "not a tag")
    latching = sheet.meant(row, "latching").lower()
    if latching not in YES + NO:
        sheet.blame(row.line, "latching", f"{sheets.shown(latching)} is neither yes nor no", "neither yes nor no")
    limit = sheet.seconds(row, "limit", values.MAX_SECONDS)
    record = read_record(sheet, row) if has_records and any(row.texts[it] for it in RECORD) else None
    if len(sheet.faults) > before or limit is None:
        return None
    return Wanted(row.line, tag, latching in YES, limit, record)


def read_record(sheet: sheets.Sheet, row: sheets.Row) -> values.Record | None:
    """The record of a line that has any of it."""
    for column in REMARKS:
        words = sheet.meant(row, column)
        odd = next((it for it in words if not " " <= it <= "~"), None)
        if not words:
            sheet.blame(row.line, column, "is empty, where the line has other parts of a record", "empty")
        elif odd is not None:
            sheet.blame(row.line, column, f"has {odd!r}, which is not a printable character of ASCII", "a character that is not of ASCII")
        elif len(words) > values.MAX_REMARK:
            sheet.blame(row.line, column, f"has {len(words)} characters; {values.MAX_REMARK} are the most", "too long")
    severity = sheet.number(row, "severity", values.MAX_SEVERITY)
    response = sheet.seconds(row, "response", values.MAX_SECONDS)
    if severity is None or response is None:
        return None
    cause, consequence, action = (sheet.meant(row, it) for it in REMARKS)
    return values.Record(cause, consequence, action, severity, response)
