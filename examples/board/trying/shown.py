"""What the page shows, compared with what the office answers."""

import datetime
import sys

from trying.common import expect, is_reached, moment_now, moment_text, rows_of, wait_for

STATES = {
    "Normal": "Normal",
    "Unacknowledged": "Unacknowledged",
    "Acknowledged": "Acknowledged",
    "ReturnedUnack": "Returned, unack.",
    "LatchedUnack": "Latched, unack.",
    "LatchedAck": "Latched, ack.",
}
DECISIONS = {"Proposed": "waits", "Approved": "approved", "Rejected": "rejected", "Withdrawn": "taken back"}
DASH = str.maketrans("-", "–")

# as lists of texts
ALARMS = """[...document.querySelectorAll("#alarm-table tbody")].map((body) => [
    body.querySelector(".tag").textContent, body.querySelector(".state").textContent, body.querySelector(".letters").textContent,
    [...body.querySelectorAll(".flags span")].map((flag) => flag.textContent).join(""), body.querySelector(".limit").textContent])"""
SHELVES = """[...document.querySelectorAll("#alarm-table tbody")].filter((body) => !body.children[1].hidden)
    .map((body) => [body.querySelector(".tag"), ...body.querySelector(".shelf").children].map((part) => part.textContent))"""
STANDING = """[...document.querySelectorAll("#standing li")].map((line) => [line.querySelector(".tag").textContent,
    line.querySelector(".state").textContent, line.querySelector(".letters").textContent,
    [...line.querySelectorAll(".flags span")].map((flag) => flag.textContent).join("")])"""
BARS = """[...document.querySelectorAll(".flood")].map((bar) => [
    Math.round(parseFloat(bar.style.left) * 14.4), Math.round(parseFloat(bar.style.width) * 14.4), bar.textContent])"""
STRIP = """[...document.querySelectorAll("#strip li")].map((part) => [part.querySelector(".letters").textContent,
    Number(part.querySelector("b").textContent), part.querySelector(".mark").classList.contains("abnormal")])"""
CHANGES = """[...document.querySelectorAll("#change-list li")].map((line) => [Number(line.querySelector("a").textContent),
    line.querySelector(".title").textContent, line.querySelector(".standing-of").textContent])"""
COMPARISON = """[...document.querySelectorAll("#change-content tr")].map((row) => [...row.children].map((cell) => cell.textContent))"""

GRID = """[...document.querySelectorAll("#change-content tbody tr")].map((row) =>
    [...row.children].map((cell) => (cell.querySelector(".letters") ?? cell).textContent))"""


UNITS = {"d": 86400, "h": 3600, "min": 60, "s": 1}


def span_text(seconds):
    """A length of time as people say it."""
    rest, parts = int(seconds), []
    for name, length in UNITS.items():
        parts += [f"{rest // length} {name}"] if rest >= length else []
        rest %= length
    return " ".join(parts) or "0 s"


def seconds_text(seconds):
    return f"{span_text(seconds)} ({seconds} s)" if seconds >= 60 else span_text(seconds)


def seconds_of(text):
    """The seconds of what is shown as left, and how exact it is: from an hour on without seconds."""
    words = text.split()
    seconds = sum(int(number) * UNITS[name] for number, name in zip(words[::2], words[1::2]))
    return seconds, 2 if seconds < 3600 else 62


def plain(moment):
    return moment.replace("T", " ").replace("Z", "")


# ---- The lists


def wanted_alarms(site, unit):
    rows = rows_of(site.read("ann", f"/units/{unit}/alarms"), 24, 14, 2, 3)
    return [
        [tag, STATES[state], letters.translate(DASH), flags.translate(DASH), span_text(limit)]
        for tag, state, letters, flags, limit in rows
    ]


def shelves_of(site, unit):
    return rows_of(site.read("ann", f"/units/{unit}/shelves"), 24, 8, 20, 6, 32)


def wanted_shelves(site, unit):
    kinds = {"timed": "for a time, ", "one-shot": "one-shot, at most "}
    return [[tag, kinds[kind], f" left, by {person}: ", words] for tag, kind, _, _, person, words in shelves_of(site, unit)]


def wanted_strip(site, unit):
    rows = [row for row in rows_of(site.read("ann", f"/units/{unit}/alarms"), 24, 14, 2, 3) if row[1] != "Normal" and row[3] == "---"]
    counts = [(letters, sum(row[2] == letters for row in rows)) for letters in ["P1", "P2", "P3", "P4", "-"]]
    return [[letters.translate(DASH), count, count > 0] for letters, count in counts]


def check_lists(site, page, unit):
    """The alarms, the shelves, the standing alarms and the strip."""
    wait_for(f"the alarms of {unit}", lambda: page.value(ALARMS) == wanted_alarms(site, unit))
    shown = page.value(SHELVES)
    expect([row[:2] + row[3:] for row in shown], wanted_shelves(site, unit), "the shelves")
    for row, shelf in zip(shown, shelves_of(site, unit)):
        shown, exact = seconds_of(row[2])
        if not -exact <= shown - int(shelf[3]) <= 2:
            sys.exit(f"{row[0]}: shown {row[2]}, the office says {shelf[3]}")
    standing = rows_of(site.read("ann", f"/units/{unit}/standing"), 24, 14, 2, 20)
    wanted = [[tag, STATES[state], letters.translate(DASH), flags.translate(DASH)] for tag, state, letters, _, flags in standing]
    expect(sorted(page.value(STANDING)), sorted(wanted), "the standing alarms")
    expect(page.value(STRIP), wanted_strip(site, unit), "the strip")


def wanted_bars(site):
    """The floods of the office: from which minute of the range, for how many, and the most of one period."""
    full = datetime.datetime(2000, 1, 1)
    period = datetime.timedelta(minutes=10)
    until = full + ((moment_now() - full) // period + 1) * period
    begin = until - datetime.timedelta(days=1)
    text = site.read("ann", f"/units/U1/floods/{moment_text(begin)}/{moment_text(until)}")
    bars = []
    for line in text.splitlines()[1:]:
        first, last, _, peak = line.split()
        times = [datetime.datetime.strptime(time, "%Y-%m-%dT%H:%M:%SZ") for time in (first, last)]
        bars.append([(times[0] - begin).total_seconds() // 60, (times[1] - times[0]).total_seconds() // 60, peak])
    return bars


def check_floods(site, page):
    # a page that has asked before ten minutes were full asks again within a minute
    wait_for("the bars of the floods", lambda: page.value(BARS) == wanted_bars(site), 75)
    expect(len(page.value(BARS)), 3, "the floods")


# ---- One alarm


def wanted_facts(site, tag):
    """The facts of an alarm without those that run down, of its record and of the record's change."""
    path = f"/units/U1/alarms/{tag}"
    alarm = site.json("ann", path)
    facts = {
        **({} if alarm["out_of_service"] else {"Service": "in service"}),
        "Suppression": "suppressed by design" if alarm["suppressed"] else "not suppressed by design",
        "Limit": f"{seconds_text(alarm['limit'])}\nrevision {alarm['limit_revision']}",
    }
    status, text = site.ask("ann", f"{path}/record")
    if status != 200:
        return alarm, facts, {}, {}
    record = site.json("ann", f"{path}/record")
    change = site.json("ann", f"/units/U1/changes/{record['change']}")
    return (
        alarm,
        facts,
        {
            "Priority": f"{record['priority']} by the matrix in force",
            "Severity": str(record["severity"]),
            "Time to respond": seconds_text(record["response"]),
            "Cause": record["cause"],
            "Consequence": record["consequence"],
            "Action": record["action"],
            "Revision": str(record["revision"]),
        },
        {
            "Change": f"Change {record['change']}",
            "Proposed": f"by {change['proposer']}\n{plain(change['proposed'])}",
            "Approved": f"by {change['decider']}\n{plain(change['decided'])}",
            "Base": f"revision {change['base']}",
        },
    )


def check_alarm(site, page, tag):
    """One alarm, whole, as the office answers it."""

    def is_shown():
        alarm, facts, record, origin = wanted_facts(site, tag)
        shown = page.facts("#alarm-facts")
        return (
            facts.items() <= shown.items()
            and shown["Service"].startswith("out of service" if alarm["out_of_service"] else "in service")
            and shown["State"].split("\n")[0] == STATES[alarm["state"]]
            and (shown["Shelf"] == "not shelved") == (alarm["shelf"] == "Unshelved")
            and page.facts("#record-facts") == record
            and page.facts("#origin-facts") == origin
        )

    page.await_text("#alarm-title", tag)
    if not is_reached(is_shown, 12):
        shown = [page.facts(f"#{place}") for place in ("alarm-facts", "record-facts", "origin-facts")]
        sys.exit(f"{tag}\n  expected {wanted_facts(site, tag)}\n  but got  {shown}")


# ---- Changes


def title_of(change):
    return change["kind"].capitalize() + (f" of {change['tag']}" if change["tag"] else "")


def changes_of(site):
    """All changes, the newest first, by asking for one after another."""
    changes = []
    while True:
        status, text = site.ask("ann", f"/units/U1/changes/{len(changes) + 1}")
        if status != 200:
            return changes[::-1]
        changes.append(site.json("ann", f"/units/U1/changes/{len(changes) + 1}"))


def check_changes(site, page, person, count=20):
    """The newest changes, those of an approver marked as not approvable."""
    changes = changes_of(site)[:count]
    is_approver = "Approver" in page.text("#person")
    wanted = [
        [
            change["number"],
            title_of(change),
            DECISIONS[change["state"]]
            + (", yours" if is_approver and change["state"] == "Proposed" and change["proposer"] == person else ""),
        ]
        for change in changes
    ]
    if not is_reached(lambda: page.value(CHANGES) == wanted, 12):
        sys.exit(f"the changes\n  expected {wanted}\n  but got  {page.value(CHANGES)}")
    return changes
