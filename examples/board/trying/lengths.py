"""Lengths of time are typed and shown as people say them, wherever the office takes seconds."""

import json
import re

from trying.browser import Page
from trying.common import expect, wait_for

RIGHT = {"45 min": 2700, "2 h": 7200, "1 d 6 h": 108000, "90": 90, "1.5 h": 5400, "1,5 h": 5400, "2 days 3 hours": 183600, "1h30min": 5400, "7 d": 604800,
         "1 S": 1, " 10 minutes 5 seconds ": 605}  # fmt: skip
SHOWN = {2700: "45 min", 7200: "2 h", 108000: "1 d 6 h", 90: "1 min 30 s", 5400: "1 h 30 min", 183600: "2 d 3 h", 604800: "7 d", 1: "1 s",
         605: "10 min 5 s"}  # fmt: skip
WRONG = ["", "0", "0 s", "8 d", "604801", "1 h 1 d", "5 min 5 min", "-5 min", "1.5 s", "2 x", "1e3", "h", "0x10", "1,5", "1,,5 h", "2 h <b>", "٣ h"]
WANTED = "a time of 1 s to 7 d, as 45 min, 2 h or 1 d 6 h"


def type_in(page, field, text):
    page.value(f"document.querySelector('#{field}').focus()")
    page.type("0")
    page.type(text)


def try_lengths(site, browser):
    count = 0
    ann = Page(browser, site.address("ann", "#U1"))
    eve = Page(browser, site.address("eve", "#U4"))
    for page, address, field, shown, form in [
        (ann, "#U1/XA-901", "seconds", "until", "shelving"), (eve, "#U4/A-3", "response", "response-span", "record-form"),
        (eve, "#U4/A-3", "max", "max-span", "limit-form"), (eve, "#U4/register", "new-max", "new-max-span", "register"),
    ]:  # fmt: skip
        page.go(address)
        ready = "#register" if field == "new-max" else "#proposing" if page is eve else "#shelving"
        wait_for(f"the form of {field}", lambda: page.is_shown(ready))
        page.value(f"(document.querySelector('#{field}').closest('details') ?? {{}}).open = true")
        calls = len(site.relay.calls)
        for text, seconds in RIGHT.items():
            type_in(page, field, text)
            page.await_text(f"#{shown}", re.compile(rf"{SHOWN[seconds]}(, until .*)?"))
            count += 1
        for text in WRONG:
            type_in(page, field, text)
            expect(page.text(f"#{shown}"), "", f"what {text!r} in {field} comes to")
            page.value(f"document.querySelector('#{form}').requestSubmit()")
            said = page.text(f"#{form} .answer")
            if field == "seconds" or field == "max":
                expect(said.endswith(f"{WANTED}."), True, f"what is said of {text!r} in {field}: {said}")
            count += 1
        expect(len(site.relay.calls), calls, f"calls for a wrong {field}")
        page.check_plain(f"wrong lengths in {field}")

    # what is sent is in seconds
    eve.go("#U4/A-3")
    eve.await_text("#alarm-title", "A-3")
    wait_for("the form", lambda: eve.is_shown("#proposing"))
    eve.value("document.querySelector('#limit-form').closest('details').open = true")
    type_in(eve, "max", "1 d 6 h")
    eve.key("Enter")
    eve.await_text("#limit-form .answer", re.compile(r"The limit of A-3 is proposed as change \d+\. .*"))
    expect(json.loads(site.relay.calls[-1][1])["max"], 108000, "the limit that was sent")
    eve.go("#U4/register")
    eve.write("new-tag", "A-7")
    type_in(eve, "new-max", "45 min")
    eve.key("Enter")
    eve.await_text("#register .answer", "A-7 is registered, with a limit of 45 min (2700 s). Show A-7")
    expect(site.json("eve", "/units/U4/alarms/A-7")["limit"], 2700, "the limit that was registered")
    eve.go("#U4")
    wait_for("the limit in the list", lambda: "45 min" in eve.texts("#alarm-table td.limit"))

    # the bands of a matrix
    eve.go("#U4/matrix")
    wait_for("the draft", lambda: eve.is_shown("#grid .band"))
    for text, heads in {"10 min": ["under 10 min", "10 min and more"], "1 h 30 min": ["under 1 h 30 min", "1 h 30 min and more"]}.items():
        while len(eve.texts("#grid .band")) > 1:
            eve.press("drop-band")
        eve.value("document.querySelector('#grid .band').focus()")
        eve.type(text)
        expect(eve.texts("#grid .times"), heads, f"the times of a matrix with {text}")
    eve.type("8 d")
    eve.await_text("#broken-lines", f"The end of time 1 has to be {WANTED}.")
    print(f"lengths of time as people say them: {count} that are right or wrong in four forms, and the times of a matrix; seconds are sent")
    return [ann, eve]
