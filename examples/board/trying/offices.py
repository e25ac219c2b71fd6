"""Several offices behind one proxy: the board merges their units, and names one that is down."""

import datetime
import http.client
import json
import re
import socket
import subprocess
import time

from trying.browser import Page
from trying.common import expect, free_port, moment_now, moment_text, wait_for
from trying.several import LINES, UNITS

CODES = "[...document.querySelector('#unit').options].map((option) => option.text)"


class Office:
    """A second office, with the unit U8."""

    def __init__(self, site):
        self.site, self.port, self.process = site, free_port(), None
        self.start()
        begin = moment_now() - datetime.timedelta(hours=1)
        for person, path, body in [
            ("root", "", {"steward": "ste", "bands": [], "cells": [["P1"]]}), ("ste", "/grants", {"person": "ann", "role": "Operator"}),
            ("ste", "/grants", {"person": "eve", "role": "Engineer"}), ("ste", "/grants", {"person": "amy", "role": "Approver"}),
            ("eve", "/alarms", {"tag": "ZT-1", "latching": False, "max": 3600}),
            ("eve", "/changes", {"kind": "record", "base": 0, "tag": "ZT-1", "severity": 1, "response": 60, "cause": "a", "consequence": "b",
                                 "action": "c"}),
            ("amy", "/changes/1/approve", None), ("ann", "/imports", f"seq,moment,tag,event\n1,{moment_text(begin)},ZT-1,ACT\n"),
        ]:  # fmt: skip
            client = http.client.HTTPConnection("127.0.0.1", self.port)
            text = body if isinstance(body, str) else json.dumps(body) if body else ""
            client.request("POST", f"/units/U8{path}", text, {"X-Person": person, "X-Moment": moment_text(begin)})
            answer = client.getresponse()
            expect((answer.status, answer.read() and None), (200, None), f"{person} {path}")
            client.close()

    def start(self):
        log = self.site.folder / "second.log"
        command = [self.site.program, "--admin", "root", "--db", self.site.folder / "second.db", "--port", str(self.port), "--forever"]
        self.process = subprocess.Popen(command, stdout=open(log, "w"), stderr=subprocess.STDOUT)
        wait_for("the second office listens", lambda: "listening on" in log.read_text())

    def stop(self):
        self.process.terminate()
        self.process.wait()


def try_offices(site, browser):
    office = Office(site)
    try:
        return try_with(site, browser, office)
    finally:
        site.relay.routes = []
        office.stop()


def routes_to(site, port):
    return [("/offices/A/", site.office_port, "/"), ("/offices/B/", port, "/"), ("/units/U8", port, "/units/U8")]


def longest_wait(page, path):
    """The seconds between a request of this path and the one that followed it, at most."""
    sent = [event["params"] for event in page.events() if event["method"] == "Network.requestWillBeSent"]
    pairs = [(one, other) for one, other in zip(sent, sent[1:]) if path in one["request"]["url"]]
    return max(other["timestamp"] - one["timestamp"] for one, other in pairs)


def try_with(site, browser, office):
    site.relay.routes = routes_to(site, office.port)
    plain = Page(browser, site.address("ann", "#U1"))
    expect(plain.value(CODES), ["U1", "U2"], "the units without the word")
    expect([path for _, path in plain.requests() if "offices" in path], [], "what is asked without the word")

    page = Page(browser, site.address("ann", "#offices=A,B"))
    wait_for("the units of both offices", lambda: page.value(CODES) == ["U1", "U2", "U8"])
    page.press("All units")
    expect(page.value("location.hash"), "#offices=A,B/units=U1,U2,U8", "the address")
    wait_for("the alarm of U8", lambda: ["P1", "U8", "ZT-1"] in page.value(LINES % "standing"))
    page.tab_to("ZT-1 of U8")
    page.key("Enter")
    page.await_text("#alarm-title", "ZT-1")
    expect(page.value("location.hash"), "#offices=A,B/U8/ZT-1", "the address of the alarm")
    page.write("words", "in the other office")
    page.key("Enter")
    page.await_text("#shelving .answer", "ZT-1 is shelved for 1 h.")

    # one that is stopped, and one that never answers: it is named, and not waited for
    page.go("#offices=A,B/U1")
    wait_for("U1", lambda: page.text("#person") == "ann: Operator" and page.value("document.querySelector('#unit').value") == "U1")
    office.stop()
    ask = lambda: page.value("document.querySelector('#again').click()")
    ask()
    words = r"The office B: The office does not answer\. \(502\) Its units are those that it gave last\."
    page.await_text("#ahead-words", re.compile(words))
    expect((page.is_shown("#trouble"), page.value(CODES)), (False, ["U1", "U2", "U8"]), "the page without the office B")
    page.check_looks("an office that is down")
    page.check_narrow("an office that is down")
    page.go("#offices=A,B/units=U1,U8")
    wait_for("U8 without its office", lambda: [bool(row[2]) for row in page.value(UNITS)] == [False, True])
    page.go("#offices=A,B/U1")
    with socket.create_server(("127.0.0.1", 0)) as deaf:
        site.relay.routes = routes_to(site, deaf.getsockname()[1])
        page.await_text("#ahead-words", re.compile(r"The office B: No answer came in time\..*"), 40)
        waited = longest_wait(page, "/offices/B/")
        expect(waited < 6, True, f"how long the page waited for an office that is deaf, {waited:.1f} s")
        begin = len(page.requests())
        time.sleep(6)
        asked = [path for _, path in page.requests()[begin:]]
        expect("/units/U1/alarms" in asked, True, f"what is asked while an office is deaf: {asked}")
    office.start()
    site.relay.routes = routes_to(site, office.port)
    wait_for("the office again", lambda: not page.is_shown("#ahead"), 40)
    page.check_focus("several offices")
    print("several offices behind one proxy: their units in one list, one that is stopped or deaf is named and not waited for")
    return [plain, page]
