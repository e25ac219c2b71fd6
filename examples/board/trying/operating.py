"""The work of operators and of maintenance."""

import json
import re
import sys
import time

from trying.browser import Page
from trying.common import expect, moment_now, moment_text, wait_for
from trying.example import WORDS
from trying.shown import (
    ALARMS, SHELVES, check_alarm, check_floods, check_lists, seconds_of, shelves_of,
)  # fmt: skip

HOSTILE = '<img src=x onerror="document.title=1">'


def try_lists(site, page, pictures):
    check_lists(site, page, "U1")
    expect(page.text("#person"), "ann: Operator", "the caller")
    expect(page.value("[...document.querySelectorAll('#unit option')].map((option) => option.value)"), ["U1", "U2"], "the units")
    expect(page.texts("#views a"), ["Alarms", "All units", "Proposals", "Import"], "the views of an operator")
    check_floods(site, page)
    first, begin = page.value(SHELVES), time.monotonic()
    time.sleep(2)
    second, end = page.value(SHELVES), time.monotonic()
    for before, after in zip(first, second):
        (left, exact), (later, _) = seconds_of(before[2]), seconds_of(after[2])
        if not -1.5 - (exact > 2) * 3 <= left - later - (end - begin) <= exact - 0.5:
            sys.exit(f"{before[0]}: {before[2]} and {end - begin:.1f} s later {after[2]}")
    looks = page.check_looks("the lists")
    page.check_narrow("the lists")
    if pictures:
        page.picture(pictures / "board-list.png")
    print(f"{len(page.value(ALARMS))} alarms, shelves that run down, standing alarms, floods as the office answers them; {looks[0]} texts")


def try_legend(page):
    page.key("?")
    wait_for("the legend", lambda: page.is_shown("#legend"))
    page.await_focus("close-legend", "the focus in the legend")
    page.check_looks("the legend")
    page.check_narrow("the legend")
    page.key("Escape")
    wait_for("no legend", lambda: not page.is_shown("#legend"))


def try_shelving(site, page, pictures):
    # by keys alone: find an alarm, choose it, and shelve it for longer than its limit, and then for less
    page.key("/")
    page.await_focus("find", "the focus after /")
    page.type("lt-20")
    page.tab_to("LT-201")
    page.key("ArrowDown")
    page.key("Enter")
    page.await_focus("alarm-title", "the focus in the alarm")
    wait_for("the address", lambda: page.value("location.hash") == "#U1/LT-202")
    check_alarm(site, page, "LT-202")
    page.write("seconds", "9000")
    page.write("words", "float is stuck")
    page.key("Enter")
    page.await_text(
        "#shelving .answer", "LT-202: The time is longer than the limit of this alarm, 2 h. (ShelvingTimeOutOfRange)"
    )
    expect("LT-202" in site.read("ann", "/units/U1/shelves"), False, "LT-202 is shelved")
    page.tab_to("seconds", back=True)
    page.type("1 h 30 min")
    page.key("Enter")
    page.await_text("#shelving .answer", "LT-202 is shelved for 1 h 30 min.")
    [shelf] = [row for row in shelves_of(site, "U1") if row[0] == "LT-202"]
    expect([shelf[1], *shelf[4:]], ["timed", "ann", "float is stuck"], "the shelf")
    if not 5380 <= int(shelf[3]) <= 5400:
        sys.exit(f"{shelf[3]} seconds left")
    wait_for("the shelf in the page", lambda: page.facts("#alarm-facts")["Shelf"].endswith(" left, by ann: float is stuck"))
    check_alarm(site, page, "LT-202")
    page.check_looks("an alarm, for an operator")
    page.check_narrow("an alarm, for an operator")
    page.key("Escape")
    wait_for("no alarm", lambda: not page.is_shown("#alarm"))
    page.await_focus("LT-202", "the focus after Escape")

    # what is not right is not sent
    count = len(site.relay.calls)
    page.key("/")
    page.type("")
    page.go("#U1/PT-301")
    check_alarm(site, page, "PT-301")
    page.write("seconds", "1.5")
    page.press("shelve")
    page.await_text("#shelving .answer", "For how long? Give a time of 1 s to 7 d, as 45 min, 2 h or 1 d 6 h.")
    page.await_focus("seconds", "the focus in the wrong field")
    page.type("1 h")
    page.press("shelve")
    page.await_text("#shelving .answer", re.compile("Say why: .*"))
    expect(len(site.relay.calls), count, "calls of a form that is not right")
    page.type("impulse line is being flushed")
    expect(page.text("#shelving .answer"), "", "what was wanted, once it is given")
    if pictures:
        page.picture(pictures / "board-shelve.png")

    # one-shot, the quota, and unshelve
    page.tab_to("timed", back=True)
    page.key("ArrowDown")
    page.press("shelve")
    page.await_text("#shelving .answer", "PT-301 is shelved until it returns to normal.")
    expect("PT-301                   one-shot" in site.read("ann", "/units/U1/shelves"), True, "PT-301 is shelved one-shot")
    check_alarm(site, page, "PT-301")
    page.go("#U1/XA-900")
    check_alarm(site, page, "XA-900")
    page.write("seconds", "60")
    page.write("words", WORDS)
    # as a round of requests begins, so that it has to wait for its turn
    page.value("document.querySelector('#again').click(), document.querySelector('#shelving').requestSubmit()")
    page.await_text("#shelving .answer", re.compile(r".*\(ShelfQuota\)"))
    page.go("#U1/PT-301")
    check_alarm(site, page, "PT-301")
    page.press("unshelve")
    page.await_text("#shelving .answer", "PT-301 is no longer shelved.")
    expect("PT-301" in site.read("ann", "/units/U1/shelves"), False, "PT-301 is shelved")
    check_alarm(site, page, "PT-301")

    # records with markup, an alarm without a record, and what is not a tag
    page.go("#U1/PT-302")
    check_alarm(site, page, "PT-302")
    expect(page.facts("#record-facts")["Action"], WORDS, "an action with markup")
    page.check_looks("a record with markup")
    page.check_narrow("a record with markup")
    page.go("#U1/FT-102")
    check_alarm(site, page, "FT-102")
    expect(page.is_shown("#record-none"), True, "no record")
    for tag, words in [("PT-999", "The unit has no such alarm."), (HOSTILE, "This is not an alarm's tag: .*")]:
        page.go(f"#U1/{tag}")
        page.await_text("#alarm-title", tag)
        page.await_text("#alarm-missing", re.compile(words))
        page.check_plain(f"the address {tag}")
    page.go("#U1")
    page.key("/")
    page.type(HOSTILE)
    page.check_plain("a search with markup")
    page.type("")
    check_lists(site, page, "U1")
    print("by keys: an alarm found and whole with its record and who approved it; shelved, refused in words, one-shot, unshelved")


def try_operator(site, browser, pictures):
    page = Page(browser, site.address("ann", "#U1"))
    try_lists(site, page, pictures)
    try_legend(page)
    try_shelving(site, page, pictures)

    # the other unit, and one that is not the caller's
    page.value("document.querySelector('#unit').focus()")
    page.key("ArrowDown")
    check_lists(site, page, "U2")
    expect(page.text("#floods-title"), "Floods of the last 24 hours: none", "floods of U2")
    expect(page.value(SHELVES)[0][4], WORDS, "a shelf with markup")
    page.check_looks("a list with markup")
    page.check_narrow("a list with markup")
    page.go("#U2/PT-12")
    wait_for("a shelf with markup", lambda: page.facts("#alarm-facts").get("Shelf", "").endswith(f" left, by bob: {WORDS}"))
    page.check_looks("a shelf with markup")
    page.check_narrow("a shelf with markup")
    page.go(f"#{HOSTILE}")
    page.await_text("#notice-words", f"You hold no role in the unit {HOSTILE} at this moment: this is U1.")
    page.check_looks("a notice with markup")
    page.go("#U1/roles")
    page.await_text("#notice-words", "You do not hold the role Steward in U1.")
    expect(page.value("location.hash"), "#U1", "the address without the role")
    page.press("notice-close")
    return page


def event(number, tag, kind, moment=None):
    return f"{number},{moment or moment_text(moment_now())},{tag},{kind}"


def choose_file(page, file):
    root = page.send("DOM.getDocument")["root"]["nodeId"]
    node = page.send("DOM.querySelector", nodeId=root, selector="#file")["nodeId"]
    page.send("DOM.setFileInputFiles", nodeId=node, files=[str(file)])


def try_import(site, page, folder, count):
    page.tab_to("Import")
    page.key("Enter")
    page.await_focus("import-title", "the focus in the import")
    page.tab_to("file")
    page.check_looks("the import")
    header = "seq,moment,tag,event"

    def write(name, *lines):
        file = folder / name
        file.write_text("\r\n".join(lines) + "\r\n")
        return str(file)

    def drop(file):
        box = "document.querySelector('#drop').getBoundingClientRect()"
        x, y = page.value(f"(({{x, y, width, height}}) => [x + width / 2, y + height / 2])({box})")
        data = {"items": [], "files": [file], "dragOperationsMask": 1}
        for kind in ["dragEnter", "dragOver", "drop"]:
            page.send("Input.dispatchDragEvent", type=kind, x=x, y=y, data=data)

    # faults that the page finds as the office does, with the line in the file's own words
    good = event(count + 1, "XA-901", "ACT")
    quoted = f'{count + 3},2026-03-01T09:00:00Z,"{HOSTILE.replace(chr(34), chr(34) * 2)}",ACT'
    calls = len(site.relay.calls)
    for number, (lines, line, cause) in enumerate([
        (["seq,moment,tag", good], 1, "Header"),
        ([header, good, "", f"{count + 2},<b>x</b>"], 3, "FieldCount"),
        ([header, event("07", "XA-901", "ACT")], 2, "BadNumber"),
        ([header, event(count + 1, "XA-901", "ACT", "2026-02-30T10:00:00Z")], 2, "BadMoment"),
        ([header, good, quoted], 3, "BadTag"),
        ([header, event(count + 1, "XA-901", "act")], 2, "BadEvent"),
        ([header, event(count + 1, "PT-999", "ACT")], 2, "TagUnknown"),
        ([header, event(count + 1, "XA-901", "ACT", "2099-01-01T00:00:00Z")], 2, "MomentAhead"),
        ([header, good, event(count + 1, "XA-901", "RTN")], 3, "SequenceClash"),
        ([header, good, event(count + 2, "XA-901", "RTN", "2026-01-01T00:00:00Z")], 3, "MomentOutOfOrder"),
    ]):  # fmt: skip
        file = write(f"<b>{number}.csv" if number == 4 else f"{number}.csv", *lines)
        choose_file(page, file) if number % 2 else drop(file)
        page.await_text("#fault-words", re.compile(rf"The file was not sent\. Line {line}: .* \({cause}\)"))
        expect(page.text("#fault-line"), [each for each in lines if each][line - 1], f"the line of {cause}")
        rows = len([each for each in lines if each]) - 1
        expect(page.facts("#file-facts")["Rows"].split(",")[0], f"{rows} row" + ("s" if rows > 1 else ""), f"the rows with {cause}")
        expect(page.is_shown("#send"), False, f"sending a file with {cause}")
        # the office finds the same
        status, text = site.ask("ann", "/units/U1/imports", open(file, "rb").read())
        expect((status, f'"cause":"{cause}","line":{line}' in text), (409, True), f"{cause} {text}")
        calls += 1
        page.check_plain(f"a file with {cause}")
    expect(len(site.relay.calls), calls, "calls of the page for files with faults")
    page.check_looks("a file with a fault")
    page.check_narrow("a file with a fault")

    # a good file: checked, counted and sent
    moment = moment_text(moment_now())
    file = write("good.csv", header, event(count + 1, "XA-901", "ACT", moment), event(count + 2, "XA-901", "ACK", moment), "",
                 event(count + 1, "XA-901", "ACT", moment))  # fmt: skip
    drop(file)
    page.await_text("#send", "Send 3 rows")
    facts = page.facts("#file-facts")
    expect(facts["Rows"], "3 rows, 1 of them repeated in the file", "the rows")
    expect((facts["Events"], facts["Alarms"]), ("2 ACT, 1 ACK", "1"), "the events")
    page.press("send")
    page.await_text("#import .answer", "good.csv: 2 rows are new, 1 is repeated.")
    expect(site.relay.calls[-1][1], open(file, "rb").read(), "the bytes that were sent")

    # a fault that only the office can find
    choose_file(page, write("clash.csv", header, event(count + 2, "XA-901", "RTN", moment)))
    page.await_text("#send", "Send 1 row")
    page.press("send")
    page.await_text("#fault-words", "The office kept nothing of the file. Line 2: Another event has this number. (SequenceClash)")
    expect(page.text("#fault-line"), event(count + 2, "XA-901", "RTN", moment), "the line of the office's fault")
    page.go("#U1")
    check_lists(site, page, "U1")
    print("import: ten faults found in the page as in the office, each with its line; a file counted and sent; a fault of the office")


def try_maintainer(site, browser):
    page = Page(browser, site.address("moe", "#U1/LT-204"))
    check_alarm(site, page, "LT-204")
    expect(page.is_shown("#shelving"), False, "shelving for maintenance")
    expect(page.is_shown("#proposing"), False, "proposing for maintenance")
    page.press("remove")
    page.await_text("#service .answer", re.compile("Say why: .*"))
    page.await_focus("service-words", "the focus in the wrong field")
    page.type(WORDS)
    page.key("Enter")
    page.await_text("#service .answer", "LT-204 is out of service.")
    expect(site.json("ann", "/units/U1/alarms/LT-204")["out_of_service"], True, "LT-204 is out of service")
    expect(site.relay.calls[-1][1].decode().count("document.title=1"), 1, "the words that were sent")
    check_alarm(site, page, "LT-204")
    service = page.facts("#alarm-facts")["Service"]
    if not re.fullmatch(rf"out of service\nby moe, since [\d: -]{{19}}: “{re.escape(WORDS)}”", service):
        expect(service, f"out of service, by moe, since this moment: “{WORDS}”", "who took the alarm out of service")
    page.check_plain("who took an alarm out of service, with markup")
    page.check_looks("an alarm, for maintenance")
    page.check_narrow("an alarm, for maintenance")
    page.press("place")
    page.await_text("#service .answer", "LT-204 is in service again.")
    expect(site.json("ann", "/units/U1/alarms/LT-204")["out_of_service"], False, "LT-204 is in service")
    check_alarm(site, page, "LT-204")

    # what another page did: where to look, and who it was if the site offers lines of the audit log
    page.go("#U1/TT-401")
    check_alarm(site, page, "TT-401")
    expect(page.facts("#alarm-facts")["Service"], "out of service\nNo call says who, since when and why. The audit log of the proxy has it, in "
           "its last line with /units/U1/alarms/TT-401/remove-from-service: ask whoever keeps that log.", "where to look")
    page.check_narrow("where to look")
    status, _ = site.ask("moe", "/units/U1/alarms/FT-102/remove-from-service", json.dumps({"words": WORDS}))
    expect(status, 200, "FT-102 out of service")
    logged = lambda: [line for line in (site.folder / "audit.log").read_text().splitlines(True) if "/FT-102/remove-from-service" in line]
    log = wait_for("the line of the audit log", logged)
    lines = site.folder / "board/audit.jsonl"
    refused = log[0].replace('"status":200', '"status":409').replace("moe", "bad")
    lines.write_text("not a line\n" + log[0].replace("moe", "mo<b>", 2) + log[0] + refused)
    other = Page(browser, site.address("vic", "#U1/FT-102"))
    wait_for("who did it", lambda: re.fullmatch(rf"out of service\nby moe, since [\d: -]{{19}}: “{re.escape(WORDS)}”",
                                                other.facts("#alarm-facts").get("Service", "")))
    other.check_plain("a line of the audit log with markup")
    other.check_narrow("who took an alarm out of service")
    other.close()
    lines.unlink()
    page.go("#U1/LT-204")
    check_alarm(site, page, "LT-204")
    expect(site.ask("moe", "/units/U1/alarms/FT-102/place-in-service", "")[0], 200, "FT-102 in service")
    print("maintenance by keys: out of service with words, and back; who, since when and why as far as the page can know it, else where to look")
    return page
