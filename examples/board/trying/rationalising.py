"""The work of engineers, approvers and stewards."""

import datetime
import re

from trying.browser import Page
from trying.common import expect, moment_now, wait_for
from trying.example import MATRIX, WORDS, record_of
from trying.operating import HOSTILE
from trying.shown import CHANGES, COMPARISON, GRID, check_alarm, check_changes, seconds_text

NEW = "PT-777"
UNKNOWN = "not known: no matrix was approved yet, and no call gives the one that the unit was opened with"
RECORD = {"cause": "a <b>bold</b> cause", "consequence": HOSTILE, "action": "x' onclick='document.title=1", "severity": 3, "response": 120}


def try_engineer(site, browser, pictures):
    page = Page(browser, site.address("eve", "#U1"))
    expect(page.texts("#views a"), ["Alarms", "All units", "Proposals", "Matrix", "Register"], "the views of an engineer")

    # an alarm is registered
    page.press("Register")
    page.await_focus("register-title", "the focus in the view")
    page.write("new-tag", HOSTILE[:24])
    page.write("new-max", "7200")
    expect(page.text("#new-max-span"), "2 h", "the seconds in words")
    page.key("Enter")
    page.await_text("#register .answer", "A tag is 1 to 24 capitals, digits, dashes, dots and underlines.")
    page.check_plain("a tag with markup")
    page.type(NEW)
    page.tab_to("latching")
    page.key(" ")
    page.key("Enter")
    page.await_text("#register .answer", f"{NEW} is registered, with a limit of 2 h (7200 s). Show {NEW}")
    page.check_looks("the registering")
    page.check_narrow("the registering")
    page.write("new-tag", NEW)
    page.write("new-max", "60")
    page.key("Enter")
    page.await_text("#register .answer", f"{NEW}: The unit has an alarm of this tag already. (AlarmTaken)")
    page.go(f"#U1/{NEW}")
    check_alarm(site, page, NEW)
    expect(page.is_shown("#shelving") or page.is_shown("#service"), False, "other roles' work")

    # a record, with markup in each of its texts, and a limit
    page.press("Another record")
    page.write("cause", RECORD["cause"])
    page.write("consequence", RECORD["consequence"])
    page.write("action", "naïve")
    page.tab_to("severity")
    page.choose("3")
    page.write("response", "120")
    page.key("Enter")
    page.await_text("#record-form .answer", "Give the action in 1 to 120 letters, digits and signs of ASCII.")
    page.await_focus("action", "the focus in the wrong field")
    page.type(RECORD["action"])
    page.key("Enter")
    page.await_text("#record-form .answer", f"The record of {NEW} is proposed as change 26. Another person has to approve it.")
    change = site.json("ann", "/units/U1/changes/26")
    expect((change["content"], change["base"], change["tag"]), (RECORD, 0, NEW), "the proposal")
    page.press("Another limit")
    page.write("max", "600")
    page.press("Propose the limit")
    page.await_text("#limit-form .answer", f"The limit of {NEW} is proposed as change 27. Another person has to approve it.")
    page.check_looks("the proposing")
    page.check_narrow("the proposing")

    # the record of another alarm is filled in, and the page shows where it comes from
    page.go("#U1/PT-301")
    check_alarm(site, page, "PT-301")
    fields = {name: page.value(f"document.querySelector('#{name}').value") for name in record_of("PT-301")}
    wanted = {name: str(value) for name, value in record_of("PT-301").items()} | {"response": "1 min"}
    expect(fields, wanted, "the fields of a proposal")
    page.value("document.querySelector('details').open = true")
    page.write("response", "90")
    if pictures:
        page.picture(pictures / "board-record.png")
    page.value("document.querySelector('details').open = false")

    # a matrix: a broken order shows at once and is not sent
    page.tab_to("Matrix", back=True)
    page.key("Enter")
    page.await_text("#matrix-note", "In force is the matrix that the unit was opened with, revision 0. No call gives its cells. "
                    "Propose the same one once, by the papers of the opening: then everybody can read it.")
    expect(page.value("document.querySelector('#matrix-base').value"), "0", "the base")
    page.press("add-severity")
    for _ in range(3):
        page.press("add-band")
    page.check_narrow("the widest matrix")
    for _ in range(2):
        page.press("drop-band")
    expect(page.texts("#grid .times"), ["under 5 min", "5 min to under 10 min", "10 min and more"], "the times")
    page.tab_to("End of time 2", back=True)
    page.type("200")
    page.await_text("#broken-lines", "Time 2 has to end later than time 1.")
    page.type("900")
    page.tab_to("Severity 3, under 5 min")
    page.choose("P4")
    wait_for("the broken order", lambda: page.is_shown("#broken"))
    expect(
        page.texts("#broken-lines li"),
        ["Severity 3 has P4, below P1 of severity 2 in the same column.", "Severity 3: P2 with more time is above P4 with less."],
        "where the order is broken",
    )
    broken = "[...document.querySelectorAll('.broken select, [aria-invalid]')].map((node) => node.dataset.cell)"
    expect(sorted(set(page.value(broken))), ["1 0", "2 0", "2 1"], "the cells that are marked")
    page.check_looks("a matrix with a broken order")
    page.check_narrow("a matrix with a broken order")
    calls = len(site.relay.calls)
    page.press("propose-matrix")
    page.await_text("#matrix .answer", "The matrix was not sent: its order is broken where it is marked.")
    expect(len(site.relay.calls), calls, "calls for a broken matrix")
    for label, cell in [
        ("Severity 3, under 5 min", "P1"), ("Severity 3, 5 min to under 15 min", "P2"), ("Severity 3, 15 min and more", "P3"),
        ("Severity 2, under 5 min", "P2"), ("Severity 2, 5 min to under 15 min", "P3"), ("Severity 2, 15 min and more", "P4"),
    ]:  # fmt: skip
        if page.focus() != label:
            page.tab_to(label)
        page.choose(cell)
    expect(page.is_shown("#broken"), False, "a broken order")
    page.press("propose-matrix")
    page.await_text("#matrix .answer", "The matrix is proposed as change 28. Another person has to approve it.")
    change = site.json("ann", "/units/U1/changes/28")
    expect((change["kind"], change["base"], change["content"]), ("matrix", 0, MATRIX), "the matrix")

    # one's own proposals are taken back
    page.go("#U1/changes/27")
    page.await_text("#change-title", f"Change 27: Limit of {NEW}")
    check_changes(site, page, "eve", 28)
    expect(page.is_shown("#approve") or page.is_shown("#reject"), False, "deciding for engineers")
    wait_for("what is in force", lambda: page.value(COMPARISON)[0] == ["", "In force, revision 0", "Proposed"])
    expect(page.value(COMPARISON)[1], ["Limit", seconds_text(7200), seconds_text(600)], "the comparison")
    page.press("withdraw")
    page.await_text("#deciding .answer", "Change 27 is taken back.")
    page.await_focus(f"26: Record of {NEW}, waits", "the next proposal of one's own")
    expect(site.json("ann", "/units/U1/changes/27")["state"], "Withdrawn", "change 27")
    page.go("#U1/changes/23")
    page.await_text("#change-title", "Change 23: Limit of PT-301")
    expect(page.is_shown("#withdraw"), False, "taking back another's proposal")
    check_changes(site, page, "eve", 28)
    print("engineers by keys: an alarm registered, record and limit proposed; a broken matrix is marked and not sent; a proposal taken back")
    return page


def wanted_comparison(change, before, revision):
    names = {"severity": "Severity", "response": "Time to respond", "cause": "Cause", "consequence": "Consequence", "action": "Action"}

    def text(name, record):
        return "–" if name not in record else seconds_text(record[name]) if name == "response" else str(record[name])

    rows = [[title, text(name, before), text(name, change["content"])] for name, title in names.items()]
    rows.insert(0, ["Priority", before.get("priority", "–"), UNKNOWN])
    return [["", f"In force, revision {revision}", "Proposed"], *rows]


def try_approver(site, browser, pictures):
    page = Page(browser, site.address("amy", "#U1"))
    expect(page.texts("#views a"), ["Alarms", "All units", "Proposals"], "the views of an approver")
    page.press("Proposals")
    changes = check_changes(site, page, "amy", 28)
    page.await_text("#changes-note", "All 28 changes were looked at.")
    asked = [int(path.split("/")[-1]) for method, path in page.requests() if "/changes/" in path]
    expect(sorted(set(asked[:9])), [1, 3, 7, 15, 23, 27, 28, 29, 31], "the last number by doubling and halving")
    expect(asked[9:24], [26, 25, 24, 22, 21, 20, 19, 18, 17, 16, 14, 13, 12, 11, 10], "then the newest")
    page.check_looks("the proposals")
    page.check_narrow("the proposals")
    page.tab_to("show-changes", back=True)
    page.key("ArrowDown")
    wanted = [change["number"] for change in changes if change["state"] == "Proposed"]
    wait_for("those that wait", lambda: [row[0] for row in page.value(CHANGES)] == wanted)
    expect(wanted, [28, 26, 25, 24, 23, 22], "the changes that wait")
    page.key("ArrowUp")

    # a change whole, with what is in force beside it, the texts with markup as they are
    page.tab_to("24: Record of PT-301, waits")
    page.key("Enter")
    page.await_focus("change-title", "the focus in the change")
    record = site.json("ann", "/units/U1/alarms/PT-301/record")
    wait_for("the comparison", lambda: page.value(COMPARISON) == wanted_comparison(changes[4], record, 1))
    expect(page.texts("#change-content .differs"), [seconds_text(120), "open XV-302"], "what differs")
    if pictures:
        page.picture(pictures / "board-change.png", 900)
    page.press("approve")
    page.await_text("#deciding .answer", "Change 24 is approved and in force.")
    page.await_focus("23: Limit of PT-301, waits", "the next proposal")
    page.await_text("#change-facts > div:nth-child(4) dd", re.compile(r"approved by amy, .*"))
    check_changes(site, page, "amy", 28)
    page.go("#U1/changes/26")
    wait_for("the markup", lambda: page.value(COMPARISON) == wanted_comparison(changes[2], {}, 0))
    page.check_looks("a proposal with markup")
    page.check_narrow("a proposal with markup")
    page.press("approve")
    page.await_text("#deciding .answer", "Change 26 is approved and in force.")
    page.go("#U1/changes/22")
    wait_for("the markup", lambda: page.is_shown("#reject") and page.value(COMPARISON)[-1][-1] == WORDS)
    page.press("reject")
    page.await_text("#deciding .answer", "Change 22 is rejected.")
    page.await_focus("28: Matrix, waits", "the next proposal, from the list's top")

    # a matrix, and one that is behind it then
    page.go("#U1/changes/28")
    grid = [["Severity 3", "P1", "P2", "P3"], ["Severity 2", "P2", "P3", "P4"], ["Severity 1", "P3", "P4", "P4"]]
    wait_for("the grid", lambda: page.value(GRID) == grid)
    page.check_looks("a matrix")
    page.check_narrow("a matrix")
    page.press("approve")
    page.await_text("#deciding .answer", "Change 28 is approved and in force.")
    page.await_focus("25: Matrix, waits", "the next proposal")
    page.go("#U1/changes/25")
    page.await_text("#behind", "Revision 1 is in force meanwhile, so the office will refuse to approve this.")
    wait_for("what differs in the matrix", lambda: page.texts("#change-content .differs") == ["N\nwas P4\n2 records"])
    page.press("approve")
    page.await_text("#deciding .answer", re.compile(r"change 25: Revision 1 is in force meanwhile\. .* \(BaseChanged\)"))
    page.await_focus("approve", "the focus after a refusal")
    page.go("#U1/changes/99")
    page.await_text("#change-missing", "The unit has no change of this number.")
    for number, state in {24: "Approved", 26: "Approved", 22: "Rejected", 28: "Approved", 25: "Proposed"}.items():
        expect(site.json("ann", f"/units/U1/changes/{number}")["state"], state, f"change {number}")

    # who approved it
    for tag in ["PT-301", NEW]:
        page.go(f"#U1/{tag}")
        check_alarm(site, page, tag)
        expect(page.facts("#origin-facts")["Approved"].split("\n")[0], "by amy", f"who approved {tag}")
    page.check_looks("a record with markup")
    page.check_narrow("a record with markup")
    print("approvers by keys: proposals newest first and found by number, one whole beside what is in force, approved and rejected")
    return page


def try_own(site, browser):
    """Someone who both proposes and approves, but not the same."""
    page = Page(browser, site.address("kim", "#U1/changes/23"))
    page.await_text("#change-title", "Change 23: Limit of PT-301")
    check_changes(site, page, "kim", 28)
    page.await_text("#own", "You proposed this, so you cannot approve it: another approver decides.")
    buttons = [page.is_shown(f"#{button}") for button in ("approve", "reject", "withdraw")]
    expect(buttons, [False, False, True], "the buttons for one's own")
    page.check_looks("one's own proposal")
    page.go("#U1/changes/25")
    wait_for("the buttons", lambda: page.is_shown("#approve"))
    expect(page.is_shown("#withdraw") or page.is_shown("#own"), False, "what is for one's own")

    # a record that has changed meanwhile
    page.go("#U1/XA-901")
    check_alarm(site, page, "XA-901")
    page.press("Another record")
    page.write("cause", "battery is old")
    path = "/units/U1/changes"
    body = {"kind": "record", "base": 1, "tag": "XA-901", **record_of("XA-901") | {"cause": "mains are lost"}}
    number = site.json_of("eve", path, body)["number"]
    site.json_of("amy", f"{path}/{number}/approve", "")
    page.await_text("#record-form .base", re.compile(r"Drawn up for revision 1\. Meanwhile revision 2 is in force, .*"))
    page.press("Propose the record")
    page.await_text("#record-form .answer", re.compile(r"record of XA-901: Revision 2 is in force meanwhile\. .* \(BaseChanged\)"))
    page.tab_to("Begin anew with the record in force", back=True)
    page.key("Enter")
    expect(page.value("document.querySelector('#cause').value"), "mains are lost", "the field after beginning anew")
    expect(page.text("#record-form .base"), "Drawn up for revision 2.", "the base after beginning anew")
    print("one's own proposals are not approvable, and a base that has changed is said before and after")
    return page


def try_steward(site, browser):
    page = Page(browser, site.address("ste", "#U1"))
    expect(page.texts("#views a"), ["Alarms", "All units", "Proposals", "Roles"], "the views of a steward")
    page.press("Roles")
    calls = len(site.relay.calls)
    page.write("grantee", HOSTILE[:32])
    page.key("Enter")
    page.await_text("#roles .answer", f"{HOSTILE[:32]} is not a person's name: 1 to 32 small letters, digits, dots and dashes.")
    page.check_plain("a name with markup")
    page.type("tom")
    page.tab_to("role")
    page.choose("Operator")
    page.write("end", "2026-02-30 10:00")
    page.press("grant")
    page.await_text("#roles .answer", "The end is a moment in UTC, as 2026-03-01 12:00, or nothing.")
    page.type("2020-01-01 10:00")
    page.press("grant")
    page.await_text("#roles .answer", "The end has to lie ahead.")
    expect(len(site.relay.calls), calls, "calls for a form that is not right")
    end = (moment_now() + datetime.timedelta(days=2)).strftime("%Y-%m-%d %H:%M")
    page.type(end)
    page.await_text("#end-words", f"until {end}:00 UTC")
    page.press("grant")
    granted = f"tom is Operator in U1, until {end}:00."
    page.await_text("#roles .answer", granted)
    expect(site.json("tom", "/units"), {"units": [{"roles": ["Operator"], "unit": "U1"}]}, "tom's roles")
    expect(f'"end": "{end.replace(" ", "T")}:00Z"'.replace(": ", ":") in site.relay.calls[-1][1].decode(), True, "the end that was sent")
    page.press("grant")
    page.await_text("#roles .answer", re.compile(r"Operator for tom: .* \(AlreadyHeld\)"))
    page.press("withdraw-role")
    withdrawn = "tom is no longer Operator in U1."
    page.await_text("#roles .answer", withdrawn)
    expect(site.json("tom", "/units"), {"units": []}, "tom's roles")
    page.press("withdraw-role")
    page.await_text("#roles .answer", re.compile(r"Operator for tom: .* \(NotHeld\)"))
    page.tab_to("grantee", back=True)
    page.type("ste")
    page.tab_to("role")
    page.choose("Steward")
    expect(page.value("document.querySelector('#end').disabled"), True, "an end for a steward")
    page.press("withdraw-role")
    page.await_text("#roles .answer", re.compile(r"Steward for ste: .* \(LastSteward\)"))
    expect([line.split(" ", 1)[1].strip() for line in page.texts("#done-list li")], [withdrawn, granted], "what was done")
    page.check_looks("the roles")
    page.check_narrow("the roles")

    # a role of one's own shows at once
    page.tab_to("role", back=True)
    page.choose("Engineer")
    page.press("grant")
    page.await_text("#roles .answer", "ste is Engineer in U1, without an end.")
    wait_for("the new views", lambda: page.is_shown("#views a[data-view=matrix]"))
    page.press("withdraw-role")
    wait_for("the old views", lambda: not page.is_shown("#views a[data-view=matrix]"))
    print("stewards by keys: roles granted with an end and withdrawn, refusals in words, what was done is listed")
    return page
