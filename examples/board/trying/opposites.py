"""Each pair of opposite actions, with a second person who acts in between: nothing is done but what a button was drawn for."""

import datetime
import json
import re
import time

from trying.browser import Page
from trying.common import expect, moment_now, wait_for

ALARM = "/units/U8/alarms/PT-1"
HERE = re.compile(r"This has changed while you were here\. PT-1 is .*")


def fill_opposites(site):
    """A unit of two people who may both shelve, and take out of service."""
    begin = moment_now() - datetime.timedelta(hours=2)
    site.direct("root", begin, "/units/U8", {"steward": "sue", "bands": [300], "cells": [["P3", "P4"], ["P1", "P2"]]})
    for person in ["pat", "mia"]:
        for role in ["Operator", "Maintainer"]:
            site.direct("sue", begin, "/units/U8/grants", {"person": person, "role": role})
    site.direct("sue", begin, "/units/U8/grants", {"person": "mia", "role": "Engineer"})
    site.direct("mia", begin, "/units/U8/alarms", {"tag": "PT-1", "latching": False, "max": 3600})


class Two:
    """pat at the page, and mia elsewhere."""

    def __init__(self, site, browser):
        self.site = site
        self.page = Page(browser, site.address("pat", "#U8/PT-1"))
        wait_for("the forms", lambda: self.page.is_shown("#shelving") and self.page.is_shown("#service"))

    def mia(self, action, **members):
        status, text = self.site.ask("mia", f"{ALARM}/{action}", json.dumps(members) if members else "")
        expect((status, text), (200, '{"done":true}'), f"mia: {action}")

    def state(self):
        """Whether the alarm is out of service, and the shelf that it has."""
        shelves = self.site.read("pat", "/units/U8/shelves").splitlines()[1:]
        return self.site.json("pat", ALARM)["out_of_service"], [re.split(r" {2,}", it[62:])[0] for it in shelves]

    def is_noticed(self, form, focus):
        """The page says what has changed, and the focus is where it was."""
        wait_for("the page says that it has changed", lambda: self.page.is_shown(f"{form} .changed"), 60)
        self.page.await_text(f"{form} .changed span", HERE)
        expect(self.page.focus(), focus, "the focus after another person has acted")

    def does_nothing(self, form, focus, state):
        """Enter sends nothing, says what is so, and the focus stays."""
        calls = len(self.site.relay.calls)
        self.page.key("Enter")
        self.page.await_text(f"{form} .answer", re.compile(r"Nothing was sent, because this has changed meanwhile\. PT-1 is .*"))
        expect((self.page.focus(), len(self.site.relay.calls), self.state()), (focus, calls, state), "after Enter")

    def begin_anew(self, form):
        wait_for("the page says that it has changed", lambda: self.page.is_shown(f"{form} .changed"))
        self.page.value(f"document.querySelector('{form} .changed button').click()")
        wait_for("no change", lambda: not self.page.is_shown(f"{form} .changed"))


def try_service(two):
    """Out of service and back."""
    page = two.page
    page.write("service-words", "valve")
    two.mia("remove-from-service", words="gas test, do not touch")
    two.is_noticed("#service", "service-words")
    two.does_nothing("#service", "service-words", (True, []))
    two.begin_anew("#service")
    expect(page.value("[remove.disabled, place.disabled]"), [True, False], "the buttons of an alarm that is out of service")
    # in service and out again, for another reason
    page.tab_to("place")
    two.mia("place-in-service")
    two.is_noticed("#service", "place")
    two.mia("remove-from-service", words="somebody is inside")
    two.does_nothing("#service", "place", (True, []))
    two.begin_anew("#service")
    page.press("place")
    page.await_text("#service .answer", "PT-1 is in service again.")
    wait_for("out of service can be pressed", lambda: not page.value("remove.disabled"))
    # between two rounds, and Enter twice
    page.write("service-words", "valve")
    two.mia("remove-from-service", words="gas test")
    two.does_nothing("#service", "service-words", (True, []))
    two.begin_anew("#service")
    page.press("place")
    page.await_text("#service .answer", "PT-1 is in service again.")
    wait_for("out of service can be pressed", lambda: not page.value("remove.disabled"))
    page.write("service-words", "valve")
    page.key("Enter")
    page.key("Enter")
    page.await_text("#service .answer", "PT-1 is out of service.")
    wait_for("the other button", lambda: not page.value("place.disabled"))
    page.key("Enter")
    expect((two.state(), page.focus()), ((True, []), "service-title"), "after Enter was pressed three times")
    page.press("place")
    page.await_text("#service .answer", "PT-1 is in service again.")


def try_shelf(two):
    """Shelved and no longer; shelved otherwise."""
    page = two.page
    page.write("words", "pump test")
    two.mia("one-shot-shelve", words="wiring")
    two.is_noticed("#shelving", "words")
    two.does_nothing("#shelving", "words", (False, ["mia"]))
    two.begin_anew("#shelving")
    page.tab_to("unshelve")
    two.mia("unshelve")
    two.is_noticed("#shelving", "unshelve")
    two.mia("timed-shelve", seconds=3000, words="another reason")
    two.does_nothing("#shelving", "unshelve", (False, ["mia"]))
    two.begin_anew("#shelving")
    page.press("unshelve")
    page.await_text("#shelving .answer", "PT-1 is no longer shelved.")
    wait_for("nothing to unshelve", lambda: not page.is_shown("#unshelve"))
    expect(two.state(), (False, []), "the shelf that was ended")


def offer_lines(site, words):
    """The site offers the lines of the audit log that its README names, once it has the one with these words."""
    logged = lambda: [it for it in (site.folder / "audit.log").read_text().splitlines(True) if re.search("(remove-from|place-in)-service", it)]
    wait_for("the line of the audit log", lambda: words in "".join(logged()[-1:]))
    (site.folder / "board/audit.jsonl").write_text("".join(logged()))


def try_removed_anew(two):
    """Taken out of service anew between two rounds, which the lines of the audit log tell apart."""
    two.mia("remove-from-service", words="cable")
    offer_lines(two.site, "cable")
    two.page.send("Page.reload")
    wait_for("who took it out", lambda: "by mia" in two.page.facts("#alarm-facts").get("Service", ""), 60)
    two.page.tab_to("place")
    time.sleep(1.1)  # the log has moments of whole seconds
    two.mia("place-in-service")
    two.mia("remove-from-service", words="somebody is inside")
    offer_lines(two.site, "somebody is inside")
    two.does_nothing("#service", "place", (True, []))
    expect("by mia since" in two.page.text("#service .answer") and "“somebody is inside”" in two.page.text("#service .answer"), True, "by whom")
    two.begin_anew("#service")
    two.page.press("place")
    two.page.await_text("#service .answer", "PT-1 is in service again.")
    (two.site.folder / "board/audit.jsonl").unlink()


def try_opposites(site, browser):
    two = Two(site, browser)
    try_service(two)
    try_shelf(two)
    try_removed_anew(two)
    two.page.check_looks("a form that has changed")
    two.page.check_narrow("a form that has changed")
    print("opposites: with a second person in between nothing is done but what a button was drawn for, and the focus stays")
    return [two.page]
