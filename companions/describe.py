"""`office describe`: keeps the descriptions and areas of alarms, for lists, handover, report and monitor."""

import pathlib

import click

from companions import alarms, aside, descriptions, mappings, options, sheets, values

MOST = {"description": 120, "area": 40}
OUT = click.Path(dir_okay=False, path_type=pathlib.Path)


def text_of(sheet: sheets.Sheet, row: sheets.Row, column: str) -> str:
    text = sheet.meant(row, column) if column in row.texts else ""
    if not text.isprintable():
        sheet.blame(row.line, column, f"{sheets.shown(text)} has a character that is not printable", "a character that is not printable")
    elif len(text) > MOST[column]:
        sheet.blame(row.line, column, f"has {len(text)} characters; {MOST[column]} are the most", "too long")
    return text


def read(path: pathlib.Path, mapping: sheets.Mapping, unit: str) -> tuple[sheets.Sheet, dict[str, descriptions.Description]]:
    """The sheet with all that is wrong in it, and the good descriptions of a unit by tag."""
    sheet = sheets.read_sheet(path, mapping, ("tag",), ("unit", *alarms.DESCRIBED))
    if not set(alarms.DESCRIBED) & set(sheet.places):
        raise sheets.Faulty(path, [sheets.Fault(1, 0, "", "there is neither a column 'description' nor one 'area': a mapping may name them")])
    found: dict[str, tuple[int, descriptions.Description]] = {}
    for row in sheet.rows:
        tag = sheet.meant(row, "tag")
        if "unit" in row.texts and sheet.meant(row, "unit") != unit:
            continue
        said = descriptions.Description(*(text_of(sheet, row, it) for it in alarms.DESCRIBED))
        if not values.TAG.fullmatch(tag):
            sheet.blame(row.line, "tag", f"{sheets.shown(tag)} is not a tag: 1 to 24 of A to Z, 0 to 9, '-', '.' and '_'", "not a tag")
        elif tag in found and found[tag][1] != said:
            for line, other in (row.line, found[tag][0]), (found[tag][0], row.line):
                sheet.blame(line, "tag", f"{tag} stands on line {other}, too", "stands twice, and says something else")
        else:
            found.setdefault(tag, (row.line, said))
    bad = {it.line for it in sheet.faults}
    return sheet, {tag: it for tag, (line, it) in found.items() if line not in bad and it != descriptions.NOTHING}


@click.command(name="describe")
@click.argument("file", type=options.FILE)
@click.option("--unit", type=options.UNIT, required=True, help="The unit; of a file with a column `unit`, its lines.")
@click.option("--into", type=OUT, required=True, envvar="OFFICE_DESCRIPTIONS", help="The file that keeps them; it is made if there is none.")
@options.mapping
@click.option("--good", "bad", type=OUT, metavar="FILE", help="Keeps the good rows, and writes the bad ones into this file, with what is wrong.")
@options.dry_run
def command(file: pathlib.Path, unit: str, into: pathlib.Path, mapping: pathlib.Path | None, bad: pathlib.Path | None, dry_run: bool) -> int:
    """Keeps the descriptions and areas of alarms that a sheet, FILE, has beside their tags.

    The office has no place for them. They are kept in a small file of the companions' own, from which show, shelves, handover, report and monitor
    take them with --descriptions, or by OFFICE_DESCRIPTIONS. The columns are tag, description and area, and unit if there is one; the mapping of
    office load may name them. What is kept of alarms that the sheet does not have stays. It asks no office. May be stopped at any moment and typed
    again.

    Status: 0 done, 1 a row set aside or the file cannot be written, 2 the sheet or the command line is wrong.
    """
    sheet, wanted = read(file, mappings.read_mapping(mapping, alarms.COLUMNS), unit)
    count = 0
    if bad is None:
        sheet.check()
    elif count := aside.set_aside(sheet, bad):
        click.echo("\n".join(sheets.summary(file, sheet.faults)))
        click.echo(f"{values.plural(count, 'row')} with what is wrong: {bad}")
    there = descriptions.read(into) if descriptions.check(into) else descriptions.NONE
    new = {(unit, tag): it for tag, it in wanted.items() if there.of(unit, tag) != it}
    if new and not dry_run:
        descriptions.write(into, new)
    click.echo(f"{'would be done' if dry_run else 'done'} {len(new):,}, there already {len(wanted) - len(new):,}, refused {count:,}")
    return int(count > 0)
