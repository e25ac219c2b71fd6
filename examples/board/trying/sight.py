"""What a person sees where they look: answers, Find, the orders of lists, the time by the zone of the computer, and how much is drawn."""

import datetime
import json
import os
import re
import time

from trying.browser import Page
from trying.common import expect, rows_of, wait_for

SCREENS = [(1366, 768), (683, 384), (390, 844)]  # a panel, the same at 200 %, a phone
IN_VIEW = """((node) => {
    const box = node.getBoundingClientRect();
    const seen = document.elementFromPoint((box.left + box.right) / 2, (box.top + box.bottom) / 2);
    return box.height > 0 && box.top >= 0 && box.bottom <= innerHeight && node.contains(seen);
})(document.querySelector("%s"))"""
TAGS = """[...document.querySelectorAll("%s")].map((row) => row.dataset.tag)"""
# counts what is changed in the lists from now on
COUNT_DRAWN = """(() => {
    window.drawn = 0;
    const watch = new MutationObserver((changes) => { window.drawn += changes.length; });
    for (const id of ["alarm-table", "standing"]) {
        watch.observe(document.getElementById(id), {subtree: true, childList: true, attributes: true, characterData: true});
    }
})()"""
# the milliseconds until another address is drawn
MOVE = """new Promise((resolve) => {
    const begin = performance.now();
    const end = () => requestAnimationFrame(() => requestAnimationFrame(() => resolve(performance.now() - begin)));
    addEventListener("hashchange", end, {once: true});
    location.hash = "%s";
})"""
MOST_DRAWN = 12  # changes in the lists when an alarm is opened or closed


def is_in_view(page, selector):
    return page.value(IN_VIEW % selector)


def try_answers(page, unit, tag):
    """The answer of each action is in view after it was given, and after the form was drawn anew."""
    for width, height in SCREENS:
        page.resize(width, height)
        page.go(f"#{unit}/{tag}")
        wait_for("the form", lambda: page.is_shown("#shelving"))
        page.value("document.querySelector('#alarm-title').focus()")
        page.write("words", "seen where one looks")
        page.key("Enter")
        page.await_text("#shelving .answer", re.compile(f"{tag} is shelved for .*"))
        wait_for("the form drawn anew", lambda: page.is_shown("#unshelve"))
        wait_for(f"the answer is seen at {width}x{height}", lambda: is_in_view(page, "#shelving .answer"), 5)
        page.press("unshelve")
        page.await_text("#shelving .answer", f"{tag} is no longer shelved.")
        wait_for("the form drawn anew", lambda: not page.is_shown("#unshelve"))
        wait_for(f"the second answer is seen at {width}x{height}", lambda: is_in_view(page, "#shelving .answer"), 5)
    page.go(f"#{unit}")


def try_filters(page):
    """Find is within two screens from the top, and stays while the list goes by."""
    for width, height in SCREENS:
        page.resize(width, height)
        page.value("scrollTo(0, 0)")
        place = page.value("document.querySelector('#find').getBoundingClientRect().top")
        expect(place < 2 * height, True, f"Find lies {place:.0f} px down at {width}x{height}")
        for share in (0.3, 0.7):
            page.value(f"scrollTo(0, {share} * document.documentElement.scrollHeight)")
            wait_for(f"Find at {width}x{height}", lambda: is_in_view(page, "#find") and is_in_view(page, "#sort"), 5)
    page.resize(1280, 1240)
    page.value("scrollTo(0, 0)")


def choose(page, field, value):
    page.value(f"document.querySelector('#{field}').focus()")
    page.choose(value)


def try_orders(page, alarms, standing):
    """`alarms` are tag, state and priority as the office lists them, `standing` the moments by tag."""
    states = ["Unacknowledged", "LatchedUnack", "ReturnedUnack", "Acknowledged", "LatchedAck", "Normal"]
    priorities = ["P1", "P2", "P3", "P4", "-", "N"]
    keys = {
        "priority": lambda row: (priorities.index(row[2]), row[0]),
        "state": lambda row: (states.index(row[1]), priorities.index(row[2]), row[0]),
        "oldest": lambda row: (standing.get(row[0], "~"), row[0]),
        "tag": lambda row: row[0],
    }
    for order, key in keys.items():
        choose(page, "sort", order)
        wanted = [row[0] for row in sorted(alarms, key=key)]
        wait_for(f"the alarms by {order}", lambda: page.value(TAGS % "#alarm-table tbody") == wanted, 5)
    choose(page, "sort-standing", "oldest")
    wanted = sorted(standing, key=lambda tag: (standing[tag], tag))
    wait_for("the standing alarms, the oldest first", lambda: page.value(TAGS % "#standing li") == wanted, 5)
    choose(page, "sort-standing", "urgency")


def try_zone(page, unit):
    page.send("Emulation.setTimezoneOverride", timezoneId="Asia/Kolkata")
    page.send("Page.reload")
    wait_for("the alarms", lambda: page.is_shown("#alarm-table tbody"), 30)
    shown = page.text("#clock")
    found = re.search(r"(\d\d):(\d\d):\d\d UTC \((\d\d:\d\d) here\)", shown)
    expect(found is not None, True, f"the time of the computer's zone in {shown}")
    here = datetime.datetime(2026, 1, 1, int(found[1]), int(found[2])) + datetime.timedelta(hours=5, minutes=30)
    expect(found[3], here.strftime("%H:%M"), "the time of the computer's zone")
    page.send("Emulation.setTimezoneOverride", timezoneId="")
    page.send("Page.reload")
    wait_for("the alarms", lambda: page.is_shown("#alarm-table tbody"), 30)
    wait_for("UTC alone", lambda: page.text("#clock").endswith(" UTC"))


def processor_seconds(browser):
    """Of the browser and all its processes."""
    children, times = {}, {}
    for name in filter(str.isdigit, os.listdir("/proc")):
        try:
            with open(f"/proc/{name}/stat") as file:
                fields = file.read().rsplit(")", 1)[1].split()
        except OSError:
            continue
        children.setdefault(int(fields[1]), []).append(int(name))
        times[int(name)] = (int(fields[11]) + int(fields[12])) / os.sysconf("SC_CLK_TCK")
    found, waiting = 0, [browser.process.pid]
    while waiting:
        process = waiting.pop()
        found += times.get(process, 0)
        waiting += children.get(process, [])
    return found


def moved(page, address):
    return page.send("Runtime.evaluate", expression=MOVE % address, awaitPromise=True, returnByValue=True)["result"]["value"]


def try_drawing(page, unit, tag, browser):
    """Among 2,000 alarms what is drawn anew is what has changed, and paper takes seconds."""
    lists = page.value("document.querySelectorAll('#alarm-table tbody').length")
    page.value(COUNT_DRAWN)
    took = {}
    for address in (f"#{unit}/{tag}", f"#{unit}") * 3:
        page.value("window.drawn = 0")
        milliseconds = moved(page, address)
        took[address] = min(milliseconds, took.get(address, milliseconds))
        drawn = page.value("window.drawn")
        expect(drawn <= MOST_DRAWN, True, f"{drawn} changes in lists of {lists} alarms at {address}")
        time.sleep(1)
    page.value("window.drawn = 0")
    time.sleep(11)  # two rounds
    expect(page.value("window.drawn"), 0, "changes in the lists while nothing has changed")
    before, begin = processor_seconds(browser), time.monotonic()
    page.send("Page.printToPDF", preferCSSPageSize=True, printBackground=True)
    printing = processor_seconds(browser) - before
    expect(printing <= 5, True, f"{printing:.1f} s of a processor to print {lists} alarms")
    opening, closing = took.values()
    words = f"among {lists} alarms one opens in {opening:.0f} ms and closes in {closing:.0f} ms"
    print(f"{words}; on paper after {time.monotonic() - begin:.1f} s, {printing:.1f} s of a processor")


def try_signing_off(site, browser):
    """The browser forgets the name and the password, and nothing of the page stays."""
    page = Page(browser, site.address("vic", "#U1"))
    page.press("sign-off")
    is_gone = "document.querySelector('#alarm-table') === null"
    wait_for("nothing of vic is shown", lambda: page.value(is_gone), 20)
    wait_for("vic is forgotten", lambda: 'user "signed-off" was not found' in (site.folder / "error.log").read_text(), 20)
    status = page.send("Page.navigate", url=f"http://127.0.0.1:{site.port}/board/?again").get("errorText", "")
    expect((status, page.value(is_gone)), ("net::ERR_INVALID_AUTH_CREDENTIALS", True), "the board for whoever comes next")
    browser.send("Target.closeTarget", targetId=page.target)


def try_full(site, browser, person):
    """Whoever holds no role sees the units of the plant, if the site offers them."""
    levels = [{"what": "alarms", "count": 2000, "most": 2000, "a_day": None, "full": None},
              {"what": "events", "count": 1234, "most": 100000, "a_day": 9.5, "full": "2027-01-02"}]  # fmt: skip
    (site.folder / "board/full.json").write_text(json.dumps({"U1": levels, "<b>U2</b>": levels}))
    page = Page(browser, site.address(person, ""), is_empty=True)
    wait_for("the units", lambda: page.is_shown("#full"), 30)
    cells = page.value("[...document.querySelectorAll('#full-table tbody tr')].map((row) => [...row.children].map((cell) => cell.textContent))")
    expect(cells[0], ["U1", "2,000 of 2,000 (100 %), FULL", "1,234 of 100,000 (1 %), full 2027-01-02"], "how full a unit is")
    expect(cells[1][0], "<b>U2</b>", "a unit's name")
    page.check_plain("the units")
    (site.folder / "board/full.json").unlink()
    browser.send("Target.closeTarget", targetId=page.target)


def try_sight(site, browser):
    ann, una = (Page(browser, site.address(*each)) for each in (("ann", "#U1"), ("una", "#U3")))
    try_answers(ann, "U1", "XA-901")
    alarms = [row[:3] for row in rows_of(site.read("ann", "/units/U1/alarms"), 24, 14, 2, 3)]
    standing = {row[0]: row[3] for row in rows_of(site.read("ann", "/units/U1/standing"), 24, 14, 2, 20)}
    try_orders(ann, alarms, standing)
    try_zone(ann, "U1")
    wait_for("2,000 alarms", lambda: una.text("#alarms-title") == "Alarms: 2000", 30)
    try_filters(una)
    try_drawing(una, "U3", "XT-1000", browser)
    try_signing_off(site, browser)
    try_full(site, browser, "root")
    print("answers are where one looks; Find stays; orders; the time of the zone; signing off; units for the administrator")
    return [ann, una]
