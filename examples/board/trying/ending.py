"""A role that ends while a form is filled in, a sign-on that runs out, a unit whose last moment lies ahead, and nobody's page."""

import datetime
import re
import time

from trying.browser import Page
from trying.common import expect, moment_now, moment_text, wait_for

AHEAD = datetime.datetime(2099, 1, 1)


def fill_ending(site):
    """Units of their own people: a role that will end, and a unit that will be ahead."""
    begin = moment_now() - datetime.timedelta(hours=2)
    for unit in ["U5", "U6", "U7"]:
        site.direct("root", begin, f"/units/{unit}", {"steward": "sue", "bands": [300], "cells": [["P3", "P4"], ["P1", "P2"]]})
        for person, role in [("max", "Operator"), ("max", "Engineer"), ("max", "Approver")]:
            site.direct("sue", begin, f"/units/{unit}/grants", {"person": person, "role": role})
        site.direct("max", begin, f"/units/{unit}/alarms", {"tag": "PT-1", "latching": False, "max": 3600})
    site.direct("sue", begin, "/units/U5/grants", {"person": "roy", "role": "Operator"})
    site.direct("sue", begin, "/units/U5/grants", {"person": "roy", "role": "Engineer"})
    site.direct("sue", begin, "/units/U6/grants", {"person": "roy", "role": "Viewer"})


def change_role(site, action, role, unit="U5"):
    site.direct("sue", moment_now(), f"/units/{unit}/{action}", {"person": "roy", "role": role})


def ask_units(page):
    """As after a minute."""
    page.value("document.querySelector('#again').click()")


def try_role_that_ends(site, browser):
    page = Page(browser, site.address("roy", "#U5/PT-1"))
    wait_for("the form", lambda: page.is_shown("#shelving"))
    page.write("seconds", "25 min")
    page.write("words", "half a sentence that")
    change_role(site, "withdrawals", "Operator")
    ask_units(page)
    page.await_text("#notice-words", "You no longer hold the role Operator in U5. What you typed stays here, but the office will refuse it. "
                    "A steward of the unit may grant it again.")
    fields = "['seconds', 'words'].map((id) => document.querySelector('#' + id).value)"
    expect((page.value(fields), page.is_shown("#shelving"), page.focus()), (["25 min", "half a sentence that"], True, "words"), "the form")
    expect(page.text("#person"), "roy: Engineer", "the roles that are left")
    page.key("Enter")
    page.await_text("#shelving .answer", re.compile(r"PT-1: This needs the role Operator, .* \(RoleLacking\)"))
    expect((page.value(fields)[1], page.value("location.hash")), ("half a sentence that", "#U5/PT-1"), "the form after it was sent")
    page.check_looks("a role that has ended")
    page.check_narrow("a role that has ended")
    change_role(site, "grants", "Operator")
    ask_units(page)
    wait_for("no notice", lambda: not page.is_shown("#notice"))
    page.key("Enter")
    page.await_text("#shelving .answer", "PT-1 is shelved for 25 min.")

    # all roles in the unit end, found out by the lists themselves; the page does not go over to U6
    page.write("words", "and another one")
    change_role(site, "withdrawals", "Operator")
    change_role(site, "withdrawals", "Engineer")
    page.value("document.querySelector('#again').click()")
    page.await_text("#notice-words", re.compile(r"You no longer hold any role in U5\. .*"))
    expect((page.value("location.hash"), page.value("document.querySelector('#unit').value")), ("#U5/PT-1", "U5"), "the unit that is shown")
    expect(page.value("document.querySelector('#words').value"), "and another one", "the words")
    expect(page.is_shown("#trouble"), False, "a trouble, though the notice says it")
    expect(page.texts("#unit option") or page.value("[...document.querySelector('#unit').options].map((option) => option.text)"),
           ["U6", "U5, ended"], "the units")
    # the lists are grey and say of when they are, also once the notice is closed; no clock runs
    page.press("notice-close")
    page.await_text("#clock", re.compile(r"[\d-]{10} [\d:]{8} UTC, not refreshed"))
    clock, left = page.text("#clock"), page.texts(".left")
    before = len(page.requests())
    time.sleep(6)
    expect((page.text("#clock"), page.texts(".left"), page.value("document.body.classList.contains('stale')")), (clock, left, True), "old lists")
    asked = [path for _, path in page.requests()[before:]]
    expect([path for path in asked if path.startswith("/units/U5")], [], "what is asked of a unit without a role")
    page.check_looks("a unit without a role")
    page.check_narrow("a unit without a role")
    for role in ["Operator", "Engineer"]:
        change_role(site, "grants", role)
    wait_for("the unit again", lambda: page.text("#person") == "roy: Engineer, Operator" or page.text("#person") == "roy: Operator, Engineer", 20)
    expect(page.value("document.querySelector('#words').value"), "and another one", "the words after all")
    page.tab_to("words")
    page.key("Enter")
    page.await_text("#shelving .answer", re.compile(r"Nothing was sent, because this has changed meanwhile\. PT-1 is shelved for a time by roy, .*"
                                                        r"|PT-1: The alarm is shelved in this way already\. .*|PT-1 is shelved .*"))

    # another unit is chosen by hand: then the ended one is gone
    change_role(site, "withdrawals", "Operator")
    change_role(site, "withdrawals", "Engineer")
    ask_units(page)
    page.await_text("#notice-words", re.compile(r"You no longer hold any role in U5\. .*"))
    page.go("#U6")
    page.await_text("#person", "roy: Viewer")
    expect(page.value("[...document.querySelector('#unit').options].map((option) => option.text)"), ["U6"], "the units then")
    change_role(site, "withdrawals", "Viewer", "U6")
    ask_units(page)
    page.await_text("#notice-words", re.compile(r"You no longer hold any role in U6\. .*"))
    expect(page.is_shown("#alarm-table"), True, "the lists of the last unit")
    page.check_focus("roles that end")
    print("a role that ends: the form stays with what was typed, and says why; the page stays at its unit, and goes on when the role is back")
    return [page]


class PasswordWindow:
    """The window in which the browser asks for a name and a password: open until it is closed or filled in."""

    def __init__(self, page):
        self.page, self.answer, self.asked, self.seen = page, None, 0, len(page.events())
        page.send("Fetch.enable", handleAuthRequests=True, patterns=[{"urlPattern": "*"}])

    def pump(self):
        """Lets requests go on. True, for use in conditions."""
        events = self.page.events()
        while self.seen < len(events):
            event = events[self.seen]
            if event["method"] == "Fetch.requestPaused":
                self.page.send("Fetch.continueRequest", requestId=event["params"]["requestId"])
            elif event["method"] == "Fetch.authRequired":
                self.asked += 1
                if self.answer is None:
                    return True  # the window is open
                self.page.send("Fetch.continueWithAuth", requestId=event["params"]["requestId"], authChallengeResponse=self.answer)
            self.seen += 1
        return True

    def wait_for(self, what, test, seconds=20):
        return wait_for(what, lambda: self.pump() and test(), seconds)

    def close(self):
        self.page.send("Fetch.disable")


def try_sign_on(site, browser):
    page = Page(browser, site.address("bob", "#U1/LT-204"))
    wait_for("the form", lambda: page.is_shown("#shelving"))
    page.write("words", "typed before the sign-on ran out")
    users = site.folder / "users"
    text = users.read_text()
    users.write_text(text.replace("bob:{PLAIN}bob", "bob:{PLAIN}another"))
    window = PasswordWindow(page)
    words = lambda: page.text("#trouble-words")

    # while the browser's own window is open
    window.wait_for("the browser's window", lambda: window.asked > 0)
    unanswered = ("The office has not answered yet. If the browser asks for your name and password, your sign-on has run out: "
                  "sign on there.")  # fmt: skip
    window.wait_for("the line while the window is open", lambda: words().startswith(unanswered))
    expect(page.text("#again"), "Ask anew", "the button")
    window.wait_for("the seconds", lambda: re.fullmatch(r"Waiting for \d+ s\.", page.text("#trouble-next")))
    page.check_looks("a sign-on that ran out, with the browser's window")
    page.check_narrow("a sign-on that ran out, with the browser's window")

    # the window is closed: nothing opens it again by itself
    window.answer = {"response": "CancelAuth"}
    window.wait_for("the line", lambda: re.match(r"Your sign-on has run out, .* What you typed stays here\. \(401\)", words()))
    expect(page.text("#again"), "Sign on", "the button")
    page.check_looks("a sign-on that ran out")
    page.check_narrow("a sign-on that ran out")
    asked = window.asked
    end = time.monotonic() + 12
    window.wait_for("12 seconds", lambda: time.monotonic() > end)
    expect(window.asked, asked, "how often the browser's window was opened")
    expect(page.focus(), "words", "the keyboard")

    # the button opens it again, and somebody signs on
    window.answer = {"response": "ProvideCredentials", "username": "bob", "password": "another"}
    page.tab_to("again", back=True)
    page.key("Enter")
    window.wait_for("no trouble", lambda: not page.is_shown("#trouble"))
    expect(window.asked > asked, True, "whether the window was opened again")
    expect(page.value("document.querySelector('#words').value"), "typed before the sign-on ran out", "the words")
    window.close()

    # an answer that takes long for another reason
    site.relay.silence.set()
    page.value("document.querySelector('#again').click()")
    page.await_text("#trouble-words", re.compile(re.escape(unanswered) + ".*"), 20)
    page.tab_to("again", back=True)
    site.relay.silence.clear()
    page.key("Enter")
    wait_for("no trouble", lambda: not page.is_shown("#trouble"))
    page.check_focus("sign-ons")
    print("a sign-on that ran out: one line and a button, also while the browser's window is open, which opens again on demand alone; what was typed stays")
    users.write_text(text)
    return [page]


def try_unit_ahead(site, browser):
    page = Page(browser, site.address("max", "#U5"))
    wait_for("the units", lambda: page.value("document.querySelector('#unit').options.length") == 3)
    site.direct("max", AHEAD, "/units/U6/alarms", {"tag": "PT-2", "latching": False, "max": 60})
    ask_units(page)
    words = ("U6: the last change is of 2099-01-01 00:00:00, which lies ahead, so the office refuses all calls until then. "
             "The other units go on. Tell the administrator: a clock was wrong.")  # fmt: skip
    page.await_text("#ahead-words", words)
    expect(page.is_shown("#trouble"), False, "a trouble")
    for unit in ["U5", "U7"]:
        page.go(f"#{unit}/PT-1")
        page.await_text("#alarm-title", "PT-1")
        wait_for("the form", lambda: page.is_shown("#shelving"))
    page.write("words", "goes on")
    page.key("Enter")
    page.await_text("#shelving .answer", "PT-1 is shelved for 1 h.")
    page.check_looks("a unit that is ahead")
    page.check_narrow("a unit that is ahead")
    page.go("#U6")
    wait_for("the unit that is ahead", lambda: page.value("document.querySelector('#unit').value") == "U6")
    time.sleep(6)
    expect((page.is_shown("#trouble"), page.text("#ahead-words")), (False, words), "the unit that is ahead")
    # the page is loaded anew: the browser has kept the units, with their roles
    page.go("#U5/PT-1")
    page.send("Page.reload")
    wait_for("the form", lambda: page.is_shown("#shelving"), 20)
    page.await_text("#ahead-words", words)
    expect(page.value("document.querySelector('#unit').options.length"), 3, "the units after loading anew")
    # a browser that has kept nothing goes by the address
    other = Page(browser, site.address("max", "#U7"))
    other.await_text("#ahead-words", re.compile(r"A unit that the page does not know: the last change is of 2099-01-01 00:00:00, .* The other units go on\. .*"))
    blank = Page(browser, site.address("max", ""), is_empty=True)
    blank.await_text("#trouble-words", re.compile(r"A unit of yours has its last change at 2099-01-01 00:00:00, .* as #U1\. \(MomentBehind\)"))
    page.check_focus("a unit that is ahead")
    print("a unit whose last moment lies ahead is named, and the other units go on: in an open page, one loaded anew and one by its address")
    return [page, other, blank]


def try_stranger(site, browser):
    page = Page(browser, site.address("tim", ""), is_empty=True)
    wait_for("the words for nobody", lambda: page.is_shown("#stranger"))
    expect(page.text("#stranger-title"), "You hold no role in any unit", "the title for nobody")
    expect(page.text("#stranger-name"), "tim", "the name to tell the administrator")
    expect("Tell the administrator of the office:" in page.text("#stranger"), True, "whom to ask")
    page.check_narrow("the page of nobody")
    page.check_looks("the page of nobody")
    site.direct("sue", moment_now(), "/units/U7/grants", {"person": "tim", "role": "Viewer"})
    ask_units(page)
    page.await_text("#person", "tim: Viewer")
    expect(page.is_shown("#stranger"), False, "the words for nobody")
    print("without a role the page says whom to ask and what to tell, and shows the unit once a role is held")
    return [page]


def try_newest(site, browser):
    """How old the newest event is, by the file of the feed: shown, named once it is above the limit, and missing."""
    page = Page(browser, site.address("vic", "#U1"))
    page.await_text("#newest", "Last event: not known here")
    file = site.folder / "board/feed-U1.json"
    for minutes, wanted, kind in [
        (3, r"Last event (\S+ )?\d\d:\d\d, 3 min ago", ""), (16, r"Last event (\S+ )?\d\d:\d\d, 16 min ago\. Does the feed run\?", "caution"),
    ]:  # fmt: skip
        moment = moment_now() - datetime.timedelta(minutes=minutes, seconds=10)
        file.write_text(f'{{"unit": "U1", "event": "{moment_text(moment)}"}}')
        page.send("Page.reload")
        page.await_text("#newest", re.compile(wanted))
        expect(page.value("document.querySelector('#newest').className"), kind, "how the age looks")
        page.check_looks("the age of the newest event")
        page.check_narrow("the age of the newest event")
    file.unlink()
    print("the age of the newest event is shown, and named above 15 min")
    return page


def try_ending(site, browser):
    return [
        *try_role_that_ends(site, browser), *try_sign_on(site, browser), *try_stranger(site, browser), *try_unit_ahead(site, browser),
        try_newest(site, browser),
    ]  # fmt: skip
