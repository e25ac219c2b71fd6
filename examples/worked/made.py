"""The worked examples that are too large to keep: how each is made, with the answers that follow from its rules by counting."""

import collections
import datetime
import functools

Example = collections.namedtuple("Example", "make one_by_one")
MADE = {}
PHRASES = {200: "OK", 400: "Bad Request", 404: "Not Found", 409: "Conflict"}
DONE = '{"done":true}'
TEN_THOUSAND = 10_000


def example(name, one_by_one=False):
    """Names an example. With one_by_one it is only run byte by byte."""

    def keep(make):
        MADE[name] = Example(make, one_by_one)
        return make

    return keep


class Stream:
    """Requests, their answers and the status at the end. A call at a time of day is on 2026-03-01."""

    def __init__(self):
        self.requests, self.answers, self.status = [], [], 0

    def made(self):
        return b"".join(self.requests), b"".join(self.answers), self.status

    def call(self, person, moment, route, body, answer, status=200):
        """A request, and the body of its answer."""
        if len(moment) == 8:
            moment = f"2026-03-01T{moment}Z"
        length = f"Content-Length: {len(body)}\r\n" if body else ""
        self.add(f"{route} HTTP/1.1\r\nX-Person: {person}\r\nX-Moment: {moment}\r\n{length}\r\n{body}", answer, status)

    def add(self, request, answer, status=200):
        """A request as it is, and the body of its answer: JSON, or lines that each end with a line feed."""
        media = "application/json" if answer.startswith("{") else "text/plain"
        head = f"HTTP/1.1 {status} {PHRASES[status]}\r\nContent-Type: {media}\r\nContent-Length: {len(answer)}\r\n\r\n"
        self.requests.append(request.encode())
        self.answers.append((head + answer).encode())

    def end_broken(self, request):
        """A last request that is answered nothing."""
        self.requests.append(request.encode())
        self.status = 4

    def refuse(self, person, moment, route, body, refusal):
        self.call(person, moment, route, body, refusal, 409)

    def open_base(self):
        """The base office: see README.md."""
        opening = '{"steward":"ste","bands":[300],"cells":[["P3","P4"],["P1","P2"]]}'
        self.call("root", "08:00:00", "POST /units/U1", opening, DONE)
        for person, role in (("ann", "Operator"), ("eve", "Engineer"), ("abe", "Approver"), ("moe", "Maintainer"), ("vic", "Viewer")):
            self.grant(person, role)
        self.register("PT-101", "false", 3600)
        self.register("LT-2", "true", 86400)

    def grant(self, person, role):
        self.call("ste", "08:00:00", "POST /units/U1/grants", f'{{"person":"{person}","role":"{role}"}}', DONE)

    def register(self, tag, latching, limit):
        self.call("eve", "08:00:00", "POST /units/U1/alarms", f'{{"tag":"{tag}","latching":{latching},"max":{limit}}}', DONE)

    def import_rows(self, moment, rows, answer, status=200):
        self.call("ann", moment, "POST /units/U1/imports", "seq,moment,tag,event\n" + "".join(rows), answer, status)


def unit_full(what):
    return f'{{"name":"UnitFull","refused":6,"value":"{what}"}}'


def bad_file(line, cause):
    return f'{{"name":"BadFile","refused":26,"value":{{"cause":"{cause}","line":{line}}}}}'


def imported(new, repeated):
    return f'{{"new":{new},"repeated":{repeated}}}'


def status_of(tag, limit, revision, state):
    """The state of an alarm that is neither shelved nor suppressed."""
    return (
        f'{{"limit":{limit},"limit_revision":{revision},"out_of_service":false,"shelf":"Unshelved","shelf_left":0,'
        f'"state":"{state}","suppressed":false,"suppressed_or_shelved":false,"tag":"{tag}"}}'
    )


def add_2000_alarms(stream):
    for number in range(2, 2000):
        stream.register(f"A-{number}", "false", 60)


def add_500_grants(stream):
    for number in range(6, 500):
        stream.grant(f"p-{number}", "Viewer")


@example("no-more-than-2000-alarms")
def two_thousand_alarms():
    stream = Stream()
    stream.open_base()
    add_2000_alarms(stream)
    for tag in ("NEW-1", "PT-101"):
        body = f'{{"tag":"{tag}","latching":false,"max":3600}}'
        stream.refuse("eve", "08:00:00", "POST /units/U1/alarms", body, unit_full("Alarms"))
    return stream.made()


@example("no-more-than-500-grants")
def five_hundred_grants():
    stream = Stream()
    stream.open_base()
    add_500_grants(stream)
    for person, role in (("zed", "Viewer"), ("ann", "Operator")):
        body = f'{{"person":"{person}","role":"{role}"}}'
        stream.refuse("ste", "08:00:00", "POST /units/U1/grants", body, unit_full("Grants"))
    stream.call("ste", "08:00:00", "POST /units/U1/withdrawals", '{"person":"p-6","role":"Viewer"}', DONE)
    stream.grant("zed", "Viewer")
    return stream.made()


@example("no-more-than-10000-rows")
def ten_thousand_rows():
    stream = Stream()
    stream.open_base()
    row = "1,2026-03-01T09:00:00Z,PT-101,ACT\n"
    stream.import_rows("10:00:00", [row] * TEN_THOUSAND, imported(1, TEN_THOUSAND - 1))
    stream.import_rows("10:00:00", [row] * (TEN_THOUSAND + 1), bad_file(TEN_THOUSAND + 2, "TooLong"), 409)
    wrong = [row] * TEN_THOUSAND + [row.replace("ACT", "act")]
    stream.import_rows("10:00:00", wrong, bad_file(TEN_THOUSAND + 2, "BadEvent"), 409)
    rows = [f"{number},2026-03-01T09:00:00Z,PT-101,ACT\n" for number in range(1, TEN_THOUSAND + 2)]
    stream.import_rows("10:00:00", rows, bad_file(TEN_THOUSAND + 2, "TooLong"), 409)
    stream.import_rows("10:00:00", rows[:-1], imported(TEN_THOUSAND - 1, 1))
    return stream.made()


def row_at_nine(number):
    """PT-101 becomes active at odd numbers and returns at even ones."""
    return f"{number},2026-03-01T09:00:00Z,PT-101,{'ACT' if number % 2 else 'RTN'}\n"


@example("a-full-unit")
def full_unit():
    stream = Stream()
    stream.open_base()
    add_500_grants(stream)
    add_2000_alarms(stream)
    change = '{"kind":"limit","base":0,"tag":"PT-101","max":600}'
    for number in range(1, 20_001):
        stream.call("eve", "08:00:00", "POST /units/U1/changes", change, f'{{"number":{number}}}')
    for first in range(1, 90_001, TEN_THOUSAND):
        rows = [row_at_nine(number) for number in range(first, first + TEN_THOUSAND)]
        stream.import_rows("10:00:00", rows, imported(TEN_THOUSAND, 0))
    stream.import_rows("10:00:00", [row_at_nine(number) for number in range(90_001, 99_998)], imported(9_997, 0))
    four_new = [row_at_nine(number) for number in (99_998, 100_000, 99_998, 7, 99_999, 100_001)]
    stream.import_rows("10:00:00", four_new, unit_full("Events"), 409)
    three_new = [row_at_nine(number) for number in (99_998, 100_000, 99_998, 7, 99_999, 100_000)]
    stream.import_rows("10:00:00", three_new, imported(3, 3))
    stream.import_rows("10:00:00", [row_at_nine(number) for number in range(90_001, 100_001)], imported(0, TEN_THOUSAND))
    stream.import_rows("10:00:00", [row_at_nine(7)], imported(0, 1))
    stream.import_rows("10:00:00", [row_at_nine(100_001)], unit_full("Events"), 409)
    stream.import_rows("10:00:00", [row_at_nine(number) for number in (99_999, 100_000, 100_001)], unit_full("Events"), 409)
    stream.import_rows("10:00:00", [row_at_nine(1).replace("PT-101", "NO-1"), row_at_nine(100_001)], unit_full("Events"), 409)
    too_many = [row_at_nine(number) for number in range(1, TEN_THOUSAND + 2)]
    stream.import_rows("10:00:00", too_many, bad_file(TEN_THOUSAND + 2, "TooLong"), 409)
    ask_full_unit(stream)
    return stream.made()


def ask_full_unit(stream):
    """The other calls on the full unit."""
    stream.call("vic", "10:00:00", "GET /units/U1/alarms/PT-101", "", status_of("PT-101", 3600, 0, "ReturnedUnack"))
    begin, end = "2026-03-01T09:00:00Z", "2026-03-01T09:10:00Z"
    floods = f"FLOODS U1 FROM {begin} TO {end} COUNT 1\n{begin} {end}  50000  50000\n"
    stream.call("vic", "10:00:00", f"GET /units/U1/floods/{begin}/{end}", "", floods)
    stream.refuse("ste", "10:00:00", "POST /units/U1/grants", '{"person":"zed","role":"Viewer"}', unit_full("Grants"))
    stream.refuse("eve", "10:00:00", "POST /units/U1/alarms", '{"tag":"A-1","latching":false,"max":60}', unit_full("Alarms"))
    stream.call("vic", "10:00:00", "GET /units/U1/standing", "", "STANDING U1 AT 2026-03-01T10:00:00Z COUNT 0\n")
    states = {"LT-2": ("Normal", 86400), "PT-101": ("ReturnedUnack", 3600)} | {f"A-{number}": ("Normal", 60) for number in range(2, 2000)}
    lines = [f"{tag:<24} {state:<14} -  --- {limit:>6}\n" for tag, (state, limit) in sorted(states.items())]
    stream.call("vic", "10:00:00", "GET /units/U1/alarms", "", "ALARMS U1 AT 2026-03-01T10:00:00Z COUNT 2000\n" + "".join(lines))
    limit = '{"kind":"limit","base":0,"tag":"PT-101","max":60}'
    stream.refuse("eve", "10:00:00", "POST /units/U1/changes", limit, unit_full("Changes"))
    stream.call("eve", "10:00:00", "POST /units/U1/changes/2/withdraw", "", DONE)
    stream.call("abe", "10:00:00", "POST /units/U1/changes/13/reject", "", DONE)
    stream.call("abe", "10:00:00", "POST /units/U1/changes/20000/approve", "", DONE)
    stream.refuse("abe", "10:00:00", "POST /units/U1/changes/1/approve", "", '{"name":"BaseChanged","refused":21,"value":1}')
    stream.call("vic", "10:00:00", "GET /units/U1/alarms/PT-101", "", status_of("PT-101", 600, 1, "ReturnedUnack"))
    for number, state, decider in ((2, "Withdrawn", "eve"), (13, "Rejected", "abe"), (20_000, "Approved", "abe")):
        content = (
            f'{{"base":0,"content":{{"max":600}},"decided":"2026-03-01T10:00:00Z","decider":"{decider}","kind":"limit","number":{number},'
            f'"proposed":"2026-03-01T08:00:00Z","proposer":"eve","state":"{state}","tag":"PT-101"}}'
        )
        stream.call("vic", "10:00:00", f"GET /units/U1/changes/{number}", "", content)


LONG_NAME = "an-operator-whose-name-has-32-by"
LONG_WORDS = "the words of a shelf may have a hundred and twenty bytes, as many as there are in these words, and not a single one more"


@example("the-longest-list")
def longest_list():
    stream = Stream()
    opening = '{"steward":"ste","bands":[300],"cells":[["P3","P4"],["P1","P2"]]}'
    stream.call("root", "08:00:00", "POST /units/U1", opening, DONE)
    stream.grant("eve", "Engineer")
    stream.grant(LONG_NAME, "Operator")
    tags = [f"THE-LONGEST-OF-TAGS-{number}" for number in range(1000, 3000)]
    for tag in tags:
        stream.register(tag, "false", 604800)
    for tag in tags:
        body = f'{{"seconds":604800,"words":"{LONG_WORDS}"}}'
        stream.call(LONG_NAME, "09:00:00", f"POST /units/U1/alarms/{tag}/timed-shelve", body, DONE)
    lines = [f"{tag} timed    2026-03-01T09:00:00Z 604800 {LONG_NAME} {LONG_WORDS}\n" for tag in tags]
    stream.call("eve", "09:00:00", "GET /units/U1/shelves", "", "SHELVES U1 AT 2026-03-01T09:00:00Z COUNT 2000\n" + "".join(lines))
    mine = "".join(f"U1       {line}" for line in lines)
    stream.call("eve", "09:00:00", "GET /shelves", "", "MINE eve AT 2026-03-01T09:00:00Z COUNT 2000\n" + mine)
    return stream.made()


@example("the-largest-body")
def largest_body():
    stream = Stream()
    stream.open_base()
    begin = '{"tag":"A-1","latching":false,"max":60,"note":"'
    stream.call("eve", "08:00:00", "POST /units/U1/alarms", begin + "a" * (1_048_574 - len(begin)) + '"}', DONE)
    stream.call("vic", "08:00:00", "GET /units/U1/alarms/A-1", "", status_of("A-1", 60, 0, "Normal"))
    return stream.made()


NOT_THERE = '{"cause":"NoRoute","malformed":6}'
HEAD_TOO_LONG = '{"cause":"HeadTooLong","malformed":2}'
LONG_HEAD = "GET /units HTTP/1.1\r\nX-Person: vic\r\nX-Moment: 2026-03-01T08:00:00Z\r\nX-Pad: "


def ask_units(stream):
    stream.call("vic", "08:00:00", "GET /units", "", '{"units":[]}')


@example("the-largest-head")
def largest_head():
    stream = Stream()
    stream.add(LONG_HEAD + "a" * (16_380 - len(LONG_HEAD)) + "\r\n\r\n", '{"units":[]}')
    ask_units(stream)
    return stream.made()


def broken_head(head, answer):
    """A head that ends the session, and a request after it."""
    stream = Stream()
    if answer:
        stream.add(head, answer, 400)
        stream.requests.append(b"GET /units HTTP/1.1\r\nX-Person: vic\r\nX-Moment: 2026-03-01T08:00:00Z\r\n\r\n")
        stream.status = 4
    else:
        stream.end_broken(head)
    return stream.made()


for name, head, answer in (
    ("head-too-long", LONG_HEAD + "a" * (16_384 - len(LONG_HEAD)), HEAD_TOO_LONG),
    ("head-not-yet-too-long", LONG_HEAD + "a" * (16_383 - len(LONG_HEAD)), ""),
    ("letters-that-are-too-many", "a" * 16_384, HEAD_TOO_LONG),
    ("letters-that-are-not-yet-too-many", "a" * 16_383, ""),
    ("letters-that-go-on", "a" * 20_000, HEAD_TOO_LONG),
):
    example(f"broken/{name}")(functools.partial(broken_head, head, answer))


@example("a-head-of-4000-fields")
def many_fields():
    stream = Stream()
    stream.add("POST /nothing HTTP/1.1\r\nContent-Length: 400000\r\n" + "a:\r\n" * 4000 + "\r\n" + "b" * 400_000, NOT_THERE, 404)
    ask_units(stream)
    return stream.made()


@example("a-million-reads", one_by_one=True)
def million_reads():
    stream = Stream()
    stream.add("GET /nothing HTTP/1.0\r\n\r\n", NOT_THERE, 404)
    requests, answers, _ = stream.made()
    return requests * 40_000, answers * 40_000, 5


WEEK_BEGIN = datetime.datetime(2026, 3, 1, 10)
Event = collections.namedtuple("Event", "tag kind second")


def moment_at(second):
    return (WEEK_BEGIN + datetime.timedelta(seconds=second)).strftime("%Y-%m-%dT%H:%M:%SZ")


def activations(events):
    """How many activations each period of ten minutes has: an ACT of an alarm that is not active."""
    counts, active = [0] * 1008, {}
    for event in events:
        if event.kind == "ACT" and not active.get(event.tag):
            counts[event.second // 600] += 1
        if event.kind in ("ACT", "RTN"):
            active[event.tag] = event.kind == "ACT"
    return counts


def floods(counts):
    """The floods of these periods: from one with more than 10 activations on, while there are at least 5. The first and the last period of each."""
    found, first = [], None
    for period, count in enumerate(counts + [0]):
        if first is None and count > 10:
            first = period
        elif first is not None and count < 5:
            found.append((first, period - 1))
            first = None
    return found


def week_of(events, heading, first_line):
    """The events, in ten files, and twice the floods of the week, whose heading and first line are known beforehand."""
    stream = Stream()
    stream.open_base()
    for first in range(0, 100_000, TEN_THOUSAND):
        rows = [
            f"{first + place + 1},{moment_at(event.second)},{event.tag},{event.kind}\n"
            for place, event in enumerate(events[first : first + TEN_THOUSAND])
        ]
        stream.import_rows(moment_at(604_800), rows, imported(TEN_THOUSAND, 0))
    counts = activations(events)
    lines = [
        f"{moment_at(first * 600)} {moment_at(last * 600 + 600)} {sum(counts[first : last + 1]):>6} {max(counts[first : last + 1]):>6}\n"
        for first, last in floods(counts)
    ]
    begin, end = moment_at(0), moment_at(604_800)
    text = f"FLOODS U1 FROM {begin} TO {end} COUNT {len(lines)}\n" + "".join(lines)
    assert text.startswith(f"FLOODS U1 FROM 2026-03-01T10:00:00Z TO 2026-03-08T10:00:00Z COUNT {heading}\n{first_line}\n"), text[:200]
    for _ in range(2):
        stream.call("vic", end, f"GET /units/U1/floods/{begin}/{end}", "", text)
    return stream.made()


def turn(row):
    return "RTN" if row % 2 else "ACT"


@example("floods-of-an-alarm-that-never-returns")
def repeated_alarms():
    events = [Event("PT-101", "ACT", row * 6) if row < 50_000 else Event("LT-2", turn(row), row * 6) for row in range(100_000)]
    return week_of(events, 1, "2026-03-04T21:20:00Z 2026-03-08T08:40:00Z  25000     50")


@example("floods-of-two-alarms-in-turn")
def alternating_alarms():
    events = [Event("PT-101" if row % 4 < 2 else "LT-2", turn(row), row * 6) for row in range(100_000)]
    return week_of(events, 1, "2026-03-01T10:00:00Z 2026-03-08T08:40:00Z  50000     50")


@example("floods-in-18-bursts")
def bursts():
    events = [Event("PT-101", turn(row), row // 5_556 * 32_400 + row % 5_556 // 10) for row in range(100_000)]
    return week_of(events, 18, "2026-03-01T10:00:00Z 2026-03-01T10:10:00Z   2778   2778")


@example("10000-rows-between-90000")
def rows_between():
    stream = Stream()
    stream.open_base()
    row = lambda number: f"{number},{moment_at(number)},PT-101,ACT\n"
    for first in range(1, 90_001, TEN_THOUSAND):
        stream.import_rows(moment_at(604_800), [row(2 * number) for number in range(first, first + TEN_THOUSAND)], imported(TEN_THOUSAND, 0))
    between = [row(180_001 - 18 * place) for place in range(TEN_THOUSAND)]
    stream.import_rows(moment_at(604_800), between, imported(TEN_THOUSAND, 0))
    stream.import_rows(moment_at(604_800), between, imported(0, TEN_THOUSAND))
    stream.call("vic", moment_at(604_800), "GET /units/U1/alarms/PT-101", "", status_of("PT-101", 3600, 0, "Unacknowledged"))
    return stream.made()
