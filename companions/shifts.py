"""Shifts of a plant, and its local time beside UTC."""

import dataclasses
import datetime
import re
import zoneinfo

import click

from companions import pages, values

TIME = re.compile(r"([01]?[0-9]|2[0-3]):([0-5][0-9])")
LATE = datetime.timedelta(hours=1)  # for so long after its end a shift is still the one that hands over
PERIOD = datetime.timedelta(seconds=values.FLOOD_PERIOD)
DAY = datetime.timedelta(days=1)


class Zone(click.ParamType):
    """The name of a time zone."""

    name = "zone"

    def convert(self, value: object, param: click.Parameter | None, ctx: click.Context | None) -> zoneinfo.ZoneInfo:
        if isinstance(value, zoneinfo.ZoneInfo):
            return value
        try:
            return zoneinfo.ZoneInfo(str(value))
        except (zoneinfo.ZoneInfoNotFoundError, ValueError, OSError):
            self.fail(f"{value!r} is no time zone that this machine knows; one is named as Europe/Berlin", param, ctx)


class Times(click.ParamType):
    """When the shifts of a day begin, with commas between them."""

    name = "times"

    def convert(self, value: object, param: click.Parameter | None, ctx: click.Context | None) -> tuple[datetime.time, ...]:
        if isinstance(value, tuple):
            return value
        found = [TIME.fullmatch(it.strip()) for it in str(value).split(",")]
        times = [datetime.time(int(it[1]), int(it[2])) for it in found if it is not None]
        if len(times) < len(found) or times != sorted(set(times)):
            self.fail(f"{value!r} is not a list of rising times, as 06:00,14:00,22:00", param, ctx)
        return tuple(times)


@dataclasses.dataclass(frozen=True)
class Clock:
    """How moments are written: by UTC, or by a zone's time with that of UTC beside it. What lies on the day of `at` has no date."""

    at: datetime.datetime
    zone: zoneinfo.ZoneInfo | None

    def local(self, moment: datetime.datetime) -> datetime.datetime:
        return moment.astimezone(self.zone or datetime.timezone.utc)

    def name(self) -> str:
        return "UTC" if self.zone is None else f"{self.zone.key}, UTC in brackets"

    def full(self, moment: datetime.datetime | None) -> str:
        """With its date."""
        if moment is None or self.zone is None:
            return pages.minute(moment)
        here = self.local(moment)
        form = "%H:%MZ" if here.date() == moment.astimezone(datetime.timezone.utc).date() else "%Y-%m-%d %H:%MZ"
        return f"{here:%Y-%m-%d %H:%M} ({moment.astimezone(datetime.timezone.utc).strftime(form)})"

    def short(self, moment: datetime.datetime | None) -> str:
        """As short as it is clear: what is more than two days away has its day alone."""
        if moment is None:
            return ""
        here, now = self.local(moment), self.local(self.at)
        if abs(moment - self.at) > 2 * DAY:
            return f"{here:%Y-%m-%d}"
        text = here.strftime("%H:%M" if here.date() == now.date() else "%m-%d %H:%M")
        return text if self.zone is None else f"{text} ({self.utc(moment)})"

    def utc(self, moment: datetime.datetime) -> str:
        """The time of UTC, with its day where that is another than the local one."""
        utc, here = moment.astimezone(datetime.timezone.utc), self.local(moment)
        return utc.strftime("%H:%MZ" if utc.date() == here.date() else "%m-%d %H:%MZ")


@dataclasses.dataclass(frozen=True)
class Shift:
    """The shift that ends, and the full ten minutes around it, of which the office finds floods."""

    begin: datetime.datetime
    until: datetime.datetime

    def flood_span(self, at: datetime.datetime) -> tuple[datetime.datetime, datetime.datetime]:
        last = max(aligned(at), values.EPOCH + PERIOD)
        until = min(aligned(self.until + PERIOD - datetime.timedelta(seconds=1)), last)
        return max(min(aligned(self.begin), until - PERIOD), values.EPOCH), until


def aligned(moment: datetime.datetime) -> datetime.datetime:
    """The full ten minutes before a moment."""
    return moment - (moment - values.EPOCH) % PERIOD


def before(at: datetime.datetime, hours: int) -> Shift:
    """The shift that ends now, in full ten minutes of the clock; none begins before the first moment of all."""
    until = max(aligned(at), values.EPOCH + PERIOD)
    return Shift(max(until - datetime.timedelta(hours=hours), values.EPOCH), until)


def begins(times: tuple[datetime.time, ...], at: datetime.datetime, zone: zoneinfo.ZoneInfo | None) -> list[datetime.datetime]:
    """When shifts begin, from two days before a moment to two days after it. A time that a clock leaves out is the one an hour later, and of one
    that comes twice it is the first."""
    today = at.astimezone(zone or datetime.timezone.utc).date()
    found = set()
    for day in range(-2, 3):
        for time in times:
            local = datetime.datetime.combine(today + DAY * day, time, zone or datetime.timezone.utc)
            found.add(local.astimezone(datetime.timezone.utc))
    return sorted(found)


def by_times(times: tuple[datetime.time, ...], at: datetime.datetime, zone: zoneinfo.ZoneInfo | None) -> Shift:
    """The shift that hands over: the one that runs; for an hour after its begin the one before."""
    those = begins(times, at, zone)
    number = max(place for place, it in enumerate(those) if it <= at)
    if at - those[number] < LATE:
        return Shift(those[number - 1], those[number])
    return Shift(those[number], min(those[number + 1], at))
