"""A unit with 2,000 alarms and 2,000 proposals."""

import datetime
import http.client
import json
import re
import time

from trying.browser import Page
from trying.common import expect, moment_now, moment_text, wait_for
from trying.shown import CHANGES

COUNT = 2000
MOST_BEFORE = 3
DECIDED = {1: "approve", 2: "reject", 1000: "approve", 2000: "reject"}


def fill_many(site):
    """U3 with its own people: una approves, fay and gil propose limits in turn. All by one connection, past the proxy."""
    begin = moment_now() - datetime.timedelta(hours=3)
    client = http.client.HTTPConnection("127.0.0.1", site.office_port)

    def call(person, path, body=""):
        text = json.dumps(body) if body else ""
        client.request("POST", f"/units/U3{path}", text, {"X-Person": person, "X-Moment": moment_text(begin)})
        answer = client.getresponse()
        said = answer.read()
        expect(answer.status, 200, f"{person} {path} {said}")

    call("root", "", {"steward": "sue", "bands": [300], "cells": [["P3", "P4"], ["P1", "P2"]]})
    for person, role in [("una", "Approver"), ("una", "Operator"), ("fay", "Engineer"), ("gil", "Engineer")]:
        call("sue", "/grants", {"person": person, "role": role})
    for number in range(1, COUNT + 1):
        call("fay", "/alarms", {"tag": f"XT-{number:04}", "latching": False, "max": 3600})
    for number in range(1, COUNT + 1):
        body = {"kind": "limit", "base": 0, "tag": f"XT-{number:04}", "max": 7200}
        call("gil" if number % 100 == 0 else "fay", "/changes", body)
    for number, decision in DECIDED.items():
        call("una", f"/changes/{number}/{decision}")
    client.close()


def numbers(page):
    return [row[0] for row in page.value(CHANGES)]


def try_counts(site, browser):
    page = Page(browser, site.address("una", "#U3"))
    wait_for("2,000 alarms", lambda: page.text("#alarms-title") == f"Alarms: {COUNT}", 30)
    page.press("Proposals")
    waiting = COUNT - len(DECIDED)
    part = r"\d+ of 2000 changes were looked at; the page looks on\..*"
    wait_for("a part of them", lambda: re.fullmatch(part, page.text("#changes-note")))
    title = page.text("#changes-title")
    if not re.fullmatch(r"Proposals: at least \d+ waiting", title) or int(title.split()[3]) >= waiting:
        expect(title, "Proposals: at least N waiting", "the count of a part")

    # a decision is not kept waiting by what is looked at meanwhile
    page.go("#U3/changes/1998")
    page.await_text("#change-title", "Change 1998: Limit of XT-1998")
    page.tab_to("reject")
    before = len(site.relay.asked)
    page.key("Enter")
    page.await_text("#deciding .answer", "Change 1998 is rejected.")
    questions = site.relay.asked[before:].index(b"POST")
    if questions > MOST_BEFORE:
        expect(questions, f"at most {MOST_BEFORE} questions", "what a decision waits for while the page looks on")
    page.await_focus("1997: Limit of XT-1997, waits", "the next proposal")
    looked_at = lambda: page.text("#changes-note")
    page.await_text("#changes-title", f"Proposals: {waiting - 1} waiting", moves=looked_at)
    expect(page.text("#changes-note"), "All 2000 changes were looked at. The first 50 are shown.", "the note")
    expect(numbers(page), list(range(2000, 1950, -1)), "the newest")

    # by number, tag, proposer and state among what was seen
    for words, state, wanted in [
        ("777", "all", [1777, 777]), ("#777", "all", [777]), ("#12", "all", [12]), ("xt-1998", "all", [1998]), ("XT-00", "approved", [1]), ("", "rejected", [2000, 1998, 2]),
        ("gil", "all", list(range(2000, 0, -100))), ("gil waits", "all", list(range(1900, 0, -100))[:9] + list(range(900, 0, -100))),
        ("<b>gil", "all", []), ("gil fay", "all", []),
    ]:  # fmt: skip
        page.value("document.querySelector('#show-changes').focus()")
        page.key("Home")
        while page.value("document.activeElement.selectedOptions[0].text") != state:
            page.key("ArrowDown")
        page.tab_to("find-change", back=True)
        page.type(words)
        wait_for(f"what {words!r} and {state} find", lambda: numbers(page) == wanted)
        page.await_text("#changes-note", f"All 2000 changes were looked at. {len(wanted)} of them match.")
    page.type("")
    page.press("more")
    wait_for("a hundred lines", lambda: len(numbers(page)) == 100)
    page.check_looks("many proposals")

    # the oldest that wait first, at once, in a page that has seen nothing yet
    pages = [page, Page(browser, site.address("una", "#U3/changes"))]
    page = pages[1]
    page.tab_to("show-changes")
    page.key("ArrowDown")
    page.tab_to("order")
    page.key("ArrowDown")
    begin = time.monotonic()
    wait_for("the oldest", lambda: numbers(page)[:3] == [3, 4, 5], 10)
    expect("of 2000 changes were looked at" in page.text("#changes-note"), True, f"a part of the changes, {page.text('#changes-note')}")
    took = time.monotonic() - begin
    page.check_focus("many proposals")
    print(f"2,000 proposals: {waiting - 1} wait, counted while the page is idle; found by number, tag, proposer and state; the oldest in {took:.1f} s")
    return pages
