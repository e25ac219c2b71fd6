"""`office handover` against the program."""

import html.parser
import json

import pytest

from companions import shifts, values
from companions.tests.plant import Plant, office as typed

AT = "2026-03-01T10:00:00Z"
RECORD = {"kind": "record", "base": 0, "tag": "B", "cause": "seal <leak>", "consequence": "loss", "action": "close", "severity": 2, "response": 120}


@pytest.fixture
def plant(office: Plant) -> Plant:
    """A shift with a flood, shelves, alarms out of service and suppressed, proposals, and a grant that ends."""
    office.open("U1", "U2", moment="2026-03-01T02:00:00Z")
    tags = ["A", "B", "C", "D", *(f"F{it}" for it in range(12))]
    office.register("U1", *tags, moment="2026-03-01T02:00:00Z")
    rows = [f"{it + 1},2026-03-01T04:0{it // 2}:00Z,F{it},ACT" for it in range(12)]
    rows += [f"{it + 21},2026-03-01T05:0{it // 2}:00Z,F{it},RTN" for it in range(12)]
    rows += ["41,2026-03-01T06:00:00Z,A,ACT", "42,2026-03-01T06:30:00Z,B,ACT", "43,2026-03-01T06:40:00Z,C,SUP"]
    assert office.call("ann", "2026-03-01T07:00:00Z", "/units/U1/imports", "seq,moment,tag,event\n" + "\n".join(rows))["new"] == 27
    assert office.call("eve", "2026-03-01T08:00:00Z", "/units/U1/changes", RECORD) == {"number": 1}
    assert office.call("amy", "2026-03-01T08:00:00Z", "/units/U1/changes/1/approve", {}) == {"done": True}
    assert office.call("eve", "2026-03-01T08:00:00Z", "/units/U1/changes", {"kind": "limit", "base": 0, "tag": "A", "max": 60}) == {"number": 2}
    office.call("moe", "2026-03-01T08:10:00Z", "/units/U1/alarms/C/remove-from-service", {"words": "valve & cable"})
    office.call("ste", "2026-03-01T08:20:00Z", "/units/U1/grants", {"person": "con", "role": "Viewer", "end": "2026-03-05T12:00:00Z"})
    office.call("ste", "2026-03-01T08:20:00Z", "/units/U1/grants", {"person": "far", "role": "Viewer", "end": "2026-04-05T12:00:00Z"})
    office.call("ann", "2026-03-01T09:30:00Z", "/units/U1/alarms/A/timed-shelve", {"seconds": 3600, "words": "pump <test>"})
    return office


def handover(plant: Plant, *words: object) -> str:
    said = typed("handover", *words, *plant.words("vic", AT))
    assert said.returncode == 0, said.stdout
    return said.stdout


def test_the_page_as_text(plant: Plant) -> None:
    backup = plant.copy("20260301T082500Z")
    plant.call("moe", "2026-03-01T09:40:00Z", "/units/U1/alarms/D/remove-from-service", {"words": "after the backup"})
    plant.call("eve", "2026-03-01T09:40:00Z", "/units/U1/changes", {"kind": "limit", "base": 0, "tag": "B", "max": 60})
    said = handover(plant, "--units", "U1,U2", "--backup", backup)
    assert said == """\
HANDOVER OF U1, U2 AT 2026-03-01 10:00, written for vic
The shift from 2026-03-01 02:00 to 2026-03-01 10:00. Times are UTC.
U1: last event 2026-03-01 06:40, 3 h 20 min ago (by the backup of 2026-03-01 08:25), TOO OLD: does the feed run?
U2: last event: none is known

                                          U1          U2    together
standing, P1                               1           0           1
standing, P2                               0           0           0
standing, no record                        1           0           1
shelved                                    1           0           1
suppressed by design                       1           0           1
out of service                             2           0           2
floods                                     1           0           1
proposals                                  2           0           2
grants that end                            1           0           1

Standing: 2
  U1       P1 B                        Unacknowledged since 06:30, 3 h 30 min
  no record 1:
  U1       -  A                        Unacknowledged since 06:00, 4 h, shelved
Shelved: 1
  no record 1:
  U1       -  A                        timed    until 10:30 by ann: pump <test>
Out of service: 2
  no record 2:
  U1       -  C                        not known (backup of 2026-03-01 08:25: since 2026-03-01 08:10 by moe: valve & cable)
  U1       -  D                        not known (backup of 2026-03-01 08:25)
Suppressed by design: 1
  no record 1:
  U1       -  C                        since 06:40
Done in this shift
  What people did in this shift is not known: no audit log was given.
Floods of the shift: 1
  U1 ············█···································
  U1 04:00 to 04:10: 12 activations, 12 in the worst ten minutes
Most frequent in this shift
  U1: to 2026-03-01 08:25, the moment of the backup
  U2: to 2026-03-01 08:25, the moment of the backup
  U1       A                             1 times,   7 %
  U1       B                             1 times,   7 %
  U1       F0                            1 times,   7 %
  U1       F1                            1 times,   7 %
  U1       F10                           1 times,   7 %
  U1       F11                           1 times,   7 %
  U1       F2                            1 times,   7 %
  U1       F3                            1 times,   7 %
  U1       F4                            1 times,   7 %
  U1       F5                            1 times,   7 %
Proposals that wait: 2
  U1           2 limit of A: 60 s, by eve since 08:00
  U1           3 limit of B: 60 s, by eve since 09:40
Grants that end within a week
  U1: 1, by the backup of 2026-03-01 08:25
    con                              Viewer     ends 2026-03-05
  U2: 0, by the backup of 2026-03-01 08:25

Handed over by: ______________________________    Taken over by: ______________________________
"""


def test_without_a_backup_the_page_says_what_is_not_known(plant: Plant) -> None:
    said = handover(plant, "--units", "U1")
    assert "not known (no backup and no line of an audit log has it)" in said
    assert "Grants that end within a week\n  U1: not known without a backup" in said
    assert "  U1           2 limit of A: 60 s, by eve since 08:00" in said and "Most frequent in this shift\n  U1: not known without a backup" in said


class Tags(html.parser.HTMLParser):
    """Sees that each tag is closed, and collects the text."""

    def __init__(self, text: str) -> None:
        super().__init__()
        self.open_tags: list[str] = []
        self.texts: list[str] = []
        self.feed(text)
        self.close()

    def handle_starttag(self, tag: str, attrs: list[tuple[str, str | None]]) -> None:
        if tag not in ("meta", "line", "br"):
            self.open_tags.append(tag)

    def handle_startendtag(self, tag: str, attrs: list[tuple[str, str | None]]) -> None:
        pass

    def handle_endtag(self, tag: str) -> None:
        assert self.open_tags.pop() == tag

    def handle_data(self, data: str) -> None:
        self.texts.append(data)


def log_line(moment: str, person: str, request: str, body: str = "", status: int = 200) -> str:
    members = {"moment": moment, "id": "0" * 32, "address": "127.0.0.1", "name": person, "person": person, "request": request}
    return json.dumps(members | {"body": body, "status": status, "office": str(status), "seconds": "0.001"}) + "\n"


def out_of_service(plant: Plant, *words: object) -> str:
    """What the page says of C."""
    said = handover(plant, "--units", "U1", *words)
    return next(it for it in said.splitlines() if it.split()[:3] == ["U1", "-", "C"]).split(None, 3)[3]


def test_why_an_alarm_is_out_of_service_is_never_that_of_a_removal_before(plant: Plant) -> None:
    """moe took C out before the backup; mia places it in service and takes it out anew, for another reason."""
    backup, log = plant.copy("20260301T082500Z"), plant.folder / "audit.log"
    path = "/units/U1/alarms/C/"
    first = log_line("2026-03-01T08:10:00Z", "moe", f"POST {path}remove-from-service", '{"words":"valve & cable"}')
    read = log_line(AT, "vic", "GET /units/U1/alarms")
    known = "since 2026-03-01 08:10 by moe: valve & cable"
    log.write_text(first + read)
    assert out_of_service(plant, "--backup", backup, "--log", log) == f"{known} (audit log to 2026-03-01 10:00)"
    # a log that begins after the removal, and before the backup
    log.write_text(log_line("2026-03-01T08:20:00Z", "ann", "POST /units/U1/imports") + read)
    assert out_of_service(plant, "--backup", backup, "--log", log) == f"{known} (backup of 2026-03-01 08:25)"
    # something newer may exist: after the log, before it, or in a call without an answer
    log.write_text(first)
    assert out_of_service(plant, "--backup", backup, "--log", log) == f"not known (audit log to 2026-03-01 08:10: {known})"
    log.write_text(log_line("2026-03-01T08:30:00Z", "ann", "POST /units/U1/imports") + read)
    assert out_of_service(plant, "--backup", backup, "--log", log) == f"not known (backup of 2026-03-01 08:25: {known})"
    log.write_text(first + log_line("2026-03-01T09:00:00Z", "mia", f"POST {path}place-in-service", "", 504) + read)
    assert out_of_service(plant, "--backup", backup, "--log", log) == "not known (audit log to 2026-03-01 10:00)"

    plant.call("ste", "2026-03-01T09:00:00Z", "/units/U1/grants", {"person": "mia", "role": "Maintainer"})
    plant.call("mia", "2026-03-01T09:10:00Z", f"{path}place-in-service", {})
    plant.call("mia", "2026-03-01T09:20:00Z", f"{path}remove-from-service", {"words": "gas test"})
    assert out_of_service(plant, "--backup", backup) == f"not known (backup of 2026-03-01 08:25: {known})"
    placed = log_line("2026-03-01T09:10:00Z", "mia", f"POST {path}place-in-service")
    again = log_line("2026-03-01T09:20:00Z", "mia", f"POST {path}remove-from-service", '{"words":"gas test"}')
    log.write_text(first + placed + again + read)
    assert out_of_service(plant, "--backup", backup, "--log", log) == "since 2026-03-01 09:20 by mia: gas test (audit log to 2026-03-01 10:00)"


def test_the_age_of_the_newest_event_is_on_the_page(plant: Plant) -> None:
    state = plant.folder / "U1.json"
    state.write_text('{"unit": "U1", "event": "2026-03-01T09:52:00Z"}')
    said = handover(plant, "--units", "U1", "--feed", state)
    assert "last event 2026-03-01 09:52, 8 min ago (by the feed)\n" in said
    said = handover(plant, "--units", "U1", "--feed", state, "--event-limit", "5")
    assert "last event 2026-03-01 09:52, 8 min ago (by the feed), TOO OLD: does the feed run?\n" in said
    assert "last event: none is known" in handover(plant, "--units", "U2")
    assert 'class="warning">U1: last event 2026-03-01 06:30' in handover(plant, "--units", "U1", "--format", "html")
    state.write_text("{}")
    said = typed("handover", "--feed", state, *plant.words("vic", AT)).stdout
    assert "is not the state of a feed" in said


def test_the_page_as_html(plant: Plant) -> None:
    out = plant.folder / "page.html"
    words = ["--backup", plant.copy("backup"), "--format", "html", "--out", out]
    assert handover(plant, *words) == ""
    page = Tags(out.read_text())
    assert page.open_tags == []
    texts = {it.strip() for it in page.texts}
    assert {"to 10:30 ann: pump <test>", "Handover of U1, U2", "Standing: 2", "12 activations", "Handed over by", "Taken over by"} <= texts
    assert any(it.startswith("not known; before: 08:10 moe (backup): valve & cable") for it in texts)
    text = out.read_text()
    assert "size: A4" in text and "http" not in text
    # of one unit there is a chart of its floods, and behind the sheet the whole lists
    assert handover(plant, "--units", "U1", "--whole", *words) == ""
    text = out.read_text()
    assert text.count("<svg") == 1 and text.count('class="bar"') == 1 and "U1: the whole lists" in text
    assert any(it.startswith("not known (backup of ") and it.endswith("by moe: valve & cable)") for it in Tags(text).texts)


def test_the_page_as_json(plant: Plant) -> None:
    page = json.loads(handover(plant, "--units", "U1", "--format", "json", "--backup", plant.copy("backup")))
    unit = page["units"][0]
    assert (page["at"], page["begin"], page["until"]) == (AT, "2026-03-01T02:00:00Z", AT)
    assert [(it["tag"], it["until"]) for it in unit["shelved"]] == [("A", "2026-03-01T10:30:00Z")]
    assert unit["ending"] == [{"person": "con", "role": "Viewer", "end": "2026-03-05T12:00:00Z"}]
    assert [it["priority"] for it in unit["standing"]] == ["P1", None]
    assert unit["floods"] == [{"start": "2026-03-01T04:00:00Z", "until": "2026-03-01T04:10:00Z", "total": 12, "peak": 12}]


@pytest.mark.parametrize("at, begin, until", [
    ("2026-03-01T10:09:59Z", "2026-03-01T02:00:00Z", "2026-03-01T10:00:00Z"),
    ("2026-03-01T10:00:00Z", "2026-03-01T02:00:00Z", "2026-03-01T10:00:00Z"),
    ("2000-01-01T03:05:00Z", "2000-01-01T00:00:00Z", "2000-01-01T03:00:00Z"),
    ("2000-01-01T00:00:00Z", "2000-01-01T00:00:00Z", "2000-01-01T00:10:00Z"),
    ("2099-12-31T23:59:59Z", "2099-12-31T15:50:00Z", "2099-12-31T23:50:00Z"),
])
def test_the_shift_before_a_moment(at: str, begin: str, until: str) -> None:
    found = shifts.before(values.moment_of(at), 8)
    assert (values.text_of(found.begin), values.text_of(found.until)) == (begin, until)


def test_a_unit_without_a_role_is_refused(plant: Plant) -> None:
    said = typed("handover", "--units", "U9", *plant.words("vic", AT))
    assert said.returncode == 1 and "NotGranted" in said.stdout
    said = typed("handover", *plant.words("nobody", AT))
    assert said.returncode == 1 and "you hold a role in no unit" in said.stdout


@pytest.mark.parametrize("content, words", [
    (b"", "is not a backup: it has 0 files of books"),
    (b"SQLite format 3\0 and no more", "cannot be read"),
])
def test_what_is_no_backup_is_refused(plant: Plant, content: bytes, words: str) -> None:
    folder = plant.folder / "other"
    folder.mkdir()
    (folder / "plant.db").write_bytes(content)
    said = typed("handover", "--backup", folder, *plant.words("vic", AT))
    assert said.returncode == 1 and words in said.stdout, said.stdout


def test_a_page_that_cannot_be_written_is_said(plant: Plant) -> None:
    said = typed("handover", "--out", plant.folder / "none/page.txt", *plant.words("vic", AT))
    assert said.returncode == 1 and "none/page.txt: No such file or directory" in said.stdout


def test_the_running_file_is_refused(plant: Plant) -> None:
    for path in plant.file, plant.file.parent:
        said = typed("handover", "--backup", path, *plant.words("vic", AT))
        assert said.returncode == 1 and "is open in an office: name a backup of it" in said.stdout, said.stdout
