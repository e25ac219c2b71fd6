"""Pages for people: templates, and the forms in which they write values."""

import collections.abc
import csv
import dataclasses
import datetime
import enum
import io
import json
import pathlib
import shutil
import stat
import typing

import click
import jinja2

from companions import values

UNSAID = {"unsaid": True}  # of a field that a page needs, and JSON does not have
TEMPLATES = pathlib.Path(__file__).parent / "templates"


def minute(moment: datetime.datetime | None) -> str:
    """A moment as a page has it, without seconds."""
    return "" if moment is None else moment.astimezone(datetime.timezone.utc).strftime("%Y-%m-%d %H:%M")


def number(value: float) -> str:
    """A number as a page has it: thousands apart, and no more than two places."""
    return f"{value:,.2f}".rstrip("0").rstrip(".") if value % 1 else f"{value:,.0f}"


def environment() -> jinja2.Environment:
    found = jinja2.Environment(
        loader=jinja2.FileSystemLoader(TEMPLATES),
        autoescape=jinja2.select_autoescape(["html"]),
        undefined=jinja2.StrictUndefined,
        trim_blocks=True,
        lstrip_blocks=True,
        keep_trailing_newline=True,
    )
    found.filters["minute"] = minute
    found.filters["length"] = values.length_of
    found.filters["number"] = number
    return found


def render(template: str, members: collections.abc.Mapping[str, object]) -> str:
    return environment().get_template(template).render(**members)


def plain(value: typing.Any) -> typing.Any:
    """A value as JSON has it: moments as the office writes them, enums by their names."""
    if isinstance(value, datetime.datetime):
        return values.text_of(value)
    if isinstance(value, datetime.date):
        return value.isoformat()
    if isinstance(value, collections.abc.Mapping):
        return {key: plain(it) for key, it in value.items()}
    if isinstance(value, enum.Enum):
        return value.name
    if dataclasses.is_dataclass(value):
        return {it.name: plain(getattr(value, it.name)) for it in dataclasses.fields(value) if "unsaid" not in it.metadata}
    if isinstance(value, (list, tuple)):
        return [plain(it) for it in value]
    return value


def json_text(value: object) -> str:
    return json.dumps(plain(value), indent=2, ensure_ascii=False) + "\n"


FORMULA = ("=", "+", "-", "@", "\t", "\r", "\n")  # how a text begins that a spreadsheet may take for a formula


def harmless(cell: typing.Any) -> typing.Any:
    """A cell as a CSV file has it. A text that a spreadsheet may run as a formula gets an apostrophe in front, as OWASP advises."""
    value = plain(cell)
    return f"'{value}" if isinstance(value, str) and value.startswith(FORMULA) else value


def bare(text: str) -> str:
    """A cell without the apostrophe that a table has in front of what looks like a formula."""
    return text[1:] if text.startswith("'") and text[1:].startswith(FORMULA) else text


def csv_text(header: collections.abc.Sequence[str], rows: collections.abc.Iterable[collections.abc.Sequence[object]]) -> str:
    written = io.StringIO(newline="")
    writer = csv.writer(written)
    writer.writerow(map(harmless, header))
    writer.writerows(map(harmless, row) for row in rows)
    return written.getvalue()


def is_replaceable(out: pathlib.Path) -> bool:
    """Whether a file may be replaced by one that is renamed to it: a regular file, or none. Devices, pipes and what a process has open are not."""
    if out.absolute().parts[1] in ("dev", "proc"):
        return False
    try:
        return stat.S_ISREG(out.stat().st_mode)
    except FileNotFoundError:
        return True


def write(text: str, out: pathlib.Path | None, encoding: str = "utf-8") -> None:
    """Writes a file, which is there as a whole or not at all; or to standard output. A link is followed. Into a device or a pipe the text is
    written as it stands."""
    if out is None:
        click.echo(text, nl=False)
    elif is_replaceable(out):
        file = out.resolve()
        beside = file.with_name(f".{file.name}.new")
        beside.write_text(text, encoding=encoding, newline="")
        if file.exists():
            shutil.copymode(file, beside)
        beside.replace(file)
    else:
        with out.open("w", encoding=encoding, newline="") as opened_file:
            opened_file.write(text)
