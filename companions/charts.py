"""Charts, as pictures in SVG that stand in a page, and as lines of text."""

import collections.abc
import dataclasses
import datetime

import markupsafe

from companions import lists, values

BLOCKS = " ▁▂▃▄▅▆▇█"
HEIGHT, WIDTH, MARGIN, FOOT = 90, 640, 30, 16


@dataclasses.dataclass(frozen=True)
class Bar:
    """A bar from one place of the axis to another, of a height, with words for who points at it."""

    begin: float
    end: float
    height: float
    words: str


@dataclasses.dataclass(frozen=True)
class Mark:
    """A place of the axis that is named."""

    at: float
    words: str


def bars(
    found: collections.abc.Sequence[Bar], marks: collections.abc.Sequence[Mark], title: str, aim: float | None = None
) -> markupsafe.Markup:
    """A picture of bars over an axis from 0 to 1, with a line at what is aimed at."""
    top = max(max((it.height for it in found), default=0), aim or 0) or 1
    room, foot = WIDTH - MARGIN, HEIGHT - FOOT
    parts = [
        f'<svg viewBox="0 0 {WIDTH} {HEIGHT}" role="img" aria-label="{markupsafe.escape(title)}" xmlns="http://www.w3.org/2000/svg">',
        f'<line class="axis" stroke="#555" x1="{MARGIN}" y1="{foot}" x2="{WIDTH}" y2="{foot}"/>',
        f'<text x="{MARGIN - 4}" y="12" text-anchor="end">{top:,g}</text><text x="{MARGIN - 4}" y="{foot}" text-anchor="end">0</text>',
    ]
    for it in found:
        high = (foot - 6) * it.height / top
        left, width = MARGIN + room * it.begin, max(room * (it.end - it.begin) - 1, 1)
        place = f'x="{left:.1f}" y="{foot - high:.1f}" width="{width:.1f}" height="{high:.1f}"'
        parts.append(f'<rect class="bar" fill="#2b5d8a" {place}><title>{markupsafe.escape(it.words)}</title></rect>')
    if aim is not None:
        high = foot - (foot - 6) * aim / top
        place = f'x1="{MARGIN}" y1="{high:.1f}" x2="{WIDTH}" y2="{high:.1f}"'
        parts.append(f'<line class="aim" stroke="#a00" stroke-dasharray="4 3" {place}/>')
        halo = 'paint-order="stroke" stroke="#fff" stroke-width="3"'
        parts.append(f'<text class="aim" {halo} x="{WIDTH}" y="{max(high - 2, 8):.1f}" text-anchor="end">at most {aim:g}</text>')
    for mark in marks:
        at = MARGIN + room * mark.at
        parts.append(f'<line class="axis" stroke="#555" x1="{at:.1f}" y1="{foot}" x2="{at:.1f}" y2="{foot + 3}"/>')
        anchor = "end" if mark.at > 0.97 else "middle"
        parts.append(f'<text x="{at:.1f}" y="{HEIGHT - 2}" text-anchor="{anchor}">{markupsafe.escape(mark.words)}</text>')
    return markupsafe.Markup("\n".join([*parts, "</svg>"]))


def of_floods(
    floods: collections.abc.Sequence[lists.Flood], begin: datetime.datetime, until: datetime.datetime, zone: datetime.tzinfo | None = None
) -> markupsafe.Markup:
    """The floods of a shift: each as wide as it lasted, as high as its worst ten minutes. The hours are those of a zone, or of UTC."""
    whole = (until - begin).total_seconds()

    def hour(moment: datetime.datetime) -> str:
        return f"{moment.astimezone(zone or datetime.timezone.utc):%H:%M}"

    def place(moment: datetime.datetime) -> float:
        return (moment - begin).total_seconds() / whole

    found = [Bar(place(it.start), place(it.until), it.peak, f"{hour(it.start)} to {hour(it.until)}: {it.total} activations") for it in floods]
    step = max(1, round(whole / 3_600 / 8))
    hours = [begin + datetime.timedelta(hours=it) for it in range(0, int(whole // 3_600) + 1, step)]
    return bars(found, [Mark(place(it), hour(it)) for it in hours if 0.02 < place(it) < 0.98], "floods of the shift")


def line_of_floods(floods: collections.abc.Sequence[lists.Flood], begin: datetime.datetime, until: datetime.datetime) -> str:
    """The same as a line of text, a character for each ten minutes, or for more of them where the shift is long."""
    periods = int((until - begin).total_seconds()) // values.FLOOD_PERIOD
    width = -(-periods // 96)
    top = max((it.peak for it in floods), default=0)
    found = []
    for first in range(0, periods, width):
        from_, to = (begin + datetime.timedelta(seconds=values.FLOOD_PERIOD * it) for it in (first, first + width))
        peak = max((it.peak for it in floods if it.start < to and it.until > from_), default=0)
        found.append(BLOCKS[-(-8 * peak // top)] if peak else "·")
    return "".join(found)
