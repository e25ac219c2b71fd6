"""What goes wrong: no role, lost answers, an office or a proxy that is not there, answers with markup."""

import base64
import http.client
import re
import sys

from trying.browser import Page
from trying.common import expect, wait_for
from trying.operating import choose_file, event
from trying.shown import CHANGES, check_alarm, check_lists

MAY = " It may have been made all the same."


def try_viewers(site, browser):
    page = Page(browser, site.address("vic", "#U1/PT-301"))
    check_alarm(site, page, "PT-301")
    for part in ["#shelving", "#service", "#proposing"]:
        expect(page.is_shown(part), False, f"{part} for a viewer")
    expect(page.texts("#views a"), ["Alarms", "All units", "Proposals"], "the views of a viewer")
    page.go("#U1/changes/23")
    page.await_text("#change-title", "Change 23: Limit of PT-301")
    buttons = "[...document.querySelectorAll('#deciding button')].filter((button) => button.checkVisibility()).length"
    expect(page.value(buttons), 0, "buttons for a viewer")
    page.close()
    path, body = "/units/U1/alarms/XA-900/timed-shelve", '{"seconds":60,"words":"from elsewhere"}'
    expect(site.ask("ann", path, body, Origin="http://elsewhere.example")[0], 403, "a call from another host's page")
    expect(site.ask("ann", path, body, Origin="null")[0], 403, "a call from a page without a host")

    # nobody, and a name that is none
    for person, words in [("tom", None), ("%3Cb%3Ex", "The name that you signed on with is not one that the office takes. (BadPerson)")]:
        page = Page(browser, site.address(person, ""), is_empty=True)
        if words:
            page.await_text("#trouble-words", words)
        else:
            page.await_text("#person", "tom: no role in any unit at this moment")
        expect(page.texts("#views a"), [], f"views for {person}")
        page.check_looks(f"the page of {person}")
        page.close()
    print("viewers get no forms and no buttons, strangers nothing, and pages of other hosts are refused by the proxy")


def try_policy(site, browser):
    """The site's Content-Security-Policy is in force, and the page works under it."""
    client = http.client.HTTPConnection("127.0.0.1", site.port)
    client.request("GET", "/board/", headers={"Authorization": "Basic " + base64.b64encode(b"ann:ann").decode()})
    answer = client.getresponse()
    policy = "default-src 'self'; img-src data:; frame-ancestors 'none'"
    expect((answer.status, answer.getheader("Content-Security-Policy")), (200, policy), "the policy")
    answer.read()
    client.close()
    page = Page(browser, site.address("ann", "#U1"))
    wait_for("the lists", lambda: page.is_shown("#standing li"))
    expect(page.errors(), [], "what the policy refuses of the page itself")
    page.value("(() => { const script = document.createElement('script'); script.textContent = 'document.title = 1'; document.body.append(script); })()")
    wait_for("the refusal", lambda: any("Content Security Policy" in event["params"].get("entry", {}).get("text", "") for event in page.errors()))
    expect(page.value("document.title === '1'"), False, "a script in line was run")
    print("the page works under the site's Content-Security-Policy, which refuses what is in line")
    return []


def lose(site, page, answer, subject, act, found):
    """A call whose answer is lost is sent once, is said to be in doubt, and what stands is asked for."""
    site.relay.is_losing = True
    calls = len(site.relay.calls)
    act()
    said = rf"{re.escape(subject)}: The office does not answer\. \(502\){re.escape(MAY)} What stands now: {found}"
    page.await_text(answer, re.compile(said, re.S))
    site.relay.is_losing = False
    expect(len(site.relay.calls), calls + 1, f"calls for {subject}")


def try_lost_answers(site, pages, folder, count):
    """Each page has done its role's work before."""
    page = pages["ann"]
    page.go("#U1/XA-901")
    check_alarm(site, page, "XA-901")
    page.write("seconds", "600")
    page.write("words", "lost <i>answer</i>")
    found = r"XA-901 is shelved for a time by ann, (10 min|9 min \d+ s) left: “lost <i>answer</i>”, and in service\."
    lose(site, page, "#shelving .answer", "XA-901", lambda: page.key("Enter"), found)
    check_alarm(site, page, "XA-901")
    page.check_looks("a call in doubt")
    file = folder / "lost.csv"
    file.write_text(f"seq,moment,tag,event\n{event(count + 3, 'XA-901', 'RTN')}\n")
    page.go("#U1/import")
    wait_for("the import", lambda: page.is_shown("#file"))
    choose_file(page, file)
    page.await_text("#send", "Send 1 row")
    page.tab_to("send")
    found = r"no call gives the events\. The file may be sent again by hand: rows that are kept already count as repeated\."
    lose(site, page, "#import .answer", "lost.csv", lambda: page.key("Enter"), found)
    page.press("send")
    page.await_text("#import .answer", "lost.csv: 0 rows are new, 1 is repeated.")

    page = pages["moe"]
    page.go("#U1/FT-101")
    check_alarm(site, page, "FT-101")
    page.write("service-words", "wiring")
    lose(site, page, "#service .answer", "FT-101", lambda: page.key("Enter"), r"FT-101 is not shelved, and out of service\.")

    page = pages["eve"]
    page.go("#U1/register")
    page.write("new-tag", "PT-778")
    page.write("new-max", "60")
    lose(site, page, "#register .answer", "PT-778", lambda: page.key("Enter"), r"PT-778 is registered, with a limit of 1 min \(60 s\)\.")
    page.go("#U1/LT-204")
    check_alarm(site, page, "LT-204")
    page.press("Another limit")
    page.write("max", "1234")
    last = len(changes_known(site)) + 1
    found = rf"change {last} of yours, of [\d: -]+, is such a proposal: it waits for a decision\."
    lose(site, page, "#limit-form .answer", "limit of LT-204", lambda: page.key("Enter"), found)

    page = pages["amy"]
    page.go(f"#U1/changes/{last}")
    page.await_text("#change-title", f"Change {last}: Limit of LT-204")
    wait_for("the buttons", lambda: page.is_shown("#approve"))
    page.tab_to("approve")
    lose(site, page, "#deciding .answer", f"change {last}", lambda: page.key("Enter"), rf"change {last} is approved by amy, [\d: -]+\.")

    page = pages["ste"]
    page.tab_to("grantee", back=True)
    page.type("tom")
    page.tab_to("grant")
    found = r"no call says who holds a role\. Ask for it again: the office refuses what is so already\."
    lose(site, page, "#roles .answer", "Engineer for tom", lambda: page.key("Enter"), found)
    page.press("grant")
    page.await_text("#roles .answer", re.compile(r".*\(AlreadyHeld\)"))
    print("lost answers: seven calls were made and sent once, and the page says what stands")


def changes_known(site):
    numbers = []
    while site.ask("ann", f"/units/U1/changes/{len(numbers) + 1}")[0] == 200:
        numbers.append(len(numbers) + 1)
    return numbers


def try_outage(site, page):
    page.go("#U1")
    check_lists(site, page, "U1")
    site.stop_office()
    page.value("document.querySelector('#again').click()")
    wait_for("502", lambda: page.text("#trouble-words").startswith("The office does not answer. (502)"), 30)
    named = wait_for("the next request named", lambda: re.fullmatch(r"Asking again in (\d+) s\.", page.text("#trouble-next")))
    expect(int(named[1]) <= 8, True, f"the next request within 8 s: {named[0]}")
    page.check_looks("an office that does not answer")
    page.check_narrow("an office that does not answer")

    # a call into the dark is not sent, since the page cannot ask first what is so
    page.go("#U1/LT-204")
    page.await_text("#alarm-title", "LT-204")
    site.relay.is_faulty = True
    page.value("document.querySelector('#again').click()")
    wait_for("503", lambda: page.text("#trouble-words").startswith("The store of the office failed."), 30)
    site.relay.is_faulty = False
    site.start_office()
    page.value("document.querySelector('#again').click()")
    check_alarm(site, page, "LT-204")
    site.stop_office()
    calls = len(site.relay.calls)
    page.write("words", "into the dark")
    page.key("Enter")
    asks = "LT-204: The office does not answer. (502) Nothing was sent."
    page.await_text("#shelving .answer", asks)
    site.stop_proxy()
    page.value("document.querySelector('#again').click()")
    wait_for("no connection", lambda: page.text("#trouble-words").startswith("No connection to the proxy."), 30)
    expect(page.text("#shelving .answer"), asks, "the call that was not sent")
    page.press("shelve")
    page.await_text("#shelving .answer", "LT-204: No connection to the proxy. Nothing was sent.")
    site.start_office()
    site.start_proxy()
    page.value("document.querySelector('#again').click()")
    wait_for("no trouble", lambda: not page.is_shown("#trouble"), 30)
    expect(len(site.relay.calls), calls, "calls into the dark")
    check_alarm(site, page, "LT-204")

    # the proxy is stopped and started again while the answer is on its way
    page.go("#U1/XA-901")
    check_alarm(site, page, "XA-901")
    site.relay.delay = 1
    page.press("unshelve")
    wait_for("the call", lambda: len(site.relay.calls) == calls + 1)
    site.stop_proxy()
    site.start_proxy()
    found = re.compile(r"XA-901: No connection to the proxy\..* What stands now: XA-901 is not shelved, and in service\.")
    page.await_text("#shelving .answer", found, 30)
    expect(len(site.relay.calls), calls + 1, "calls while the proxy was started anew")
    site.relay.delay = 0
    page.go("#U1")
    check_lists(site, page, "U1")
    print("an office that is stopped, a fault and a lost connection are named; the page comes back by itself and says what stands")


def try_markup(site, page):
    """The office holds no names or tags with markup; so they are put into its answers."""
    site.relay.swaps = {b"LT-204": b"<i>L</", b"eve": b"<u>", b"amy": b"<b>", b"Acknowledged": b"<b>Acknow</b"}
    page.go("#U1")
    wait_for("a tag with markup", lambda: "<i>L</" in page.texts("#alarm-table .tag"))
    wait_for("a state with markup", lambda: "<b>Acknow</b" in page.texts("#alarm-table .state"))
    page.check_plain("a tag and a state with markup")
    page.go("#U1/TT-402")
    wait_for("names with markup", lambda: page.facts("#origin-facts").get("Approved", "").startswith("by <b>"))
    expect(page.facts("#origin-facts")["Proposed"].startswith("by <u>"), True, "a proposer with markup")
    page.check_plain("names with markup")
    page.go("#U1/changes/20")
    page.await_text("#change-title", "Change 20: Limit of <i>L</")
    wait_for("the list", lambda: [21, "Matrix", "rejected"] in page.value(CHANGES))
    page.check_plain("changes with markup")
    site.relay.swaps = {b'"AlarmUnknown"': b'"<img src=x>"'.ljust(14)[:14]}
    page.go("#U1/PT-999")
    page.await_text("#trouble-words", re.compile(r"The unit has no such alarm.*|The office refuses this\. \(<img src=x>\).*"))
    page.check_plain("a refusal with markup")
    site.relay.swaps = {}
    page.go("#U1")
    page.value("document.querySelector('#again').click()")
    wait_for("no trouble", lambda: not page.is_shown("#trouble"), 30)
    print("tags, states, names and a refusal with markup are shown as they are")


def check_requests(site, pages):
    """No two requests at a time, and each call of a page came to the office once."""
    count = 0
    sent = []
    for page in pages:
        requests = page.requests()
        count += len(requests)
        sent += [path for method, path in requests if method == "POST"]
    came = [path for path, _ in site.relay.calls]
    for path in sent:
        if path not in came:
            # the office was stopped and the proxy had it
            sys.exit(f"{path} did not come to the office")
        came.remove(path)
    expect(len(came), site.calls, f"calls that no page sent: {came}")
    print(f"{count} requests, one at a time, and {len(sent)} calls that change something, each sent once")
