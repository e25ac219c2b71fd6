"""Every control of every view is pressed by keys, and none of them leaves the keyboard on the page's body."""

import sys
import time

from trying.browser import Page
from trying.common import expect, is_within, wait_for

# the controls of the view that is shown, by what the focus is called; what decides or is tried elsewhere is left out
CONTROLS = """[...document.querySelectorAll("main :is(a[href], button, input:not([type=file], [type=text]), select, summary)")]
    .filter((node) => node.checkVisibility({visibilityProperty: true}) && !node.disabled && node.tabIndex >= 0)
    .map((node) => node.id || node.getAttribute("aria-label") || node.textContent.trim())"""
DECIDING = {"approve", "reject", "withdraw", "unshelve", "remove", "place"}


def walk(page, address, most=14):
    """Presses each control of a view, each time from the view as it was. How many were pressed."""
    page.go("#U1")
    page.go(address)
    wait_for(f"the controls of {address}", lambda: page.value(CONTROLS))
    time.sleep(0.4)
    names = [name for name in dict.fromkeys(page.value(CONTROLS)) if name not in DECIDING][:most]
    for name in names:
        if page.value("location.hash") != address:
            page.go(address)
            is_within(lambda: name in page.value(CONTROLS), 5)
        if name not in page.value(CONTROLS):
            continue  # a control that another one shows
        page.tab_to(name, 120)
        is_box = page.value("document.activeElement.matches('[type=checkbox], [type=radio], select')")
        page.key(" " if is_box else "Enter")
        if is_box:
            page.key("Escape")
        time.sleep(0.1)
        if page.focus() == "BODY" or page.value("document.activeElement === document.body"):
            sys.exit(f"{name} of {address} leaves the keyboard on the page's body")
    page.check_focus(address)
    return len(names)


def try_keyboard(site, browser):
    count = 0
    pages = []
    for person, addresses in [
        ("ann", ["#U1", "#U1/LT-204"]),
        ("moe", ["#U1/LT-204"]),
        ("kim", ["#U1/FT-101", "#U1/changes", "#U1/changes/23", "#U1/matrix", "#U1/register"]),
        ("ste", ["#U1/roles"]),
    ]:
        page = Page(browser, site.address(person, "#U1"))
        for address in addresses:
            count += walk(page, address)
        # what goes away by itself: the line that has the keyboard, a notice, the legend, the trouble
        page.go("#U1/nowhere/at/all")
        page.go("#U9")
        wait_for("the notice", lambda: page.is_shown("#notice"))
        page.press("notice-close")
        wait_for("no notice", lambda: not page.is_shown("#notice"))
        expect(page.value("document.activeElement === document.body"), False, "the keyboard after a notice")
        page.press("open-legend")
        page.await_focus("close-legend", "the focus in the legend")
        page.key("Escape")
        page.await_focus("open-legend", "the focus after the legend")
        site.relay.is_faulty = True
        page.value("document.querySelector('#again').click()")
        wait_for("the trouble", lambda: page.is_shown("#trouble"), 30)
        page.tab_to("again")
        site.relay.is_faulty = False
        page.key("Enter")
        wait_for("no trouble", lambda: not page.is_shown("#trouble"), 30)
        expect(page.value("document.activeElement === document.body"), False, "the keyboard after the trouble")
        page.key("/")
        page.await_focus("find", "the focus after /")
        page.type("LT-20")
        page.tab_to("LT-203")
        # a line that the search no longer shows
        page.value("document.querySelector('#find').value = 'LT-201', document.querySelector('#find').dispatchEvent(new Event('input'))")
        expect(page.focus(), "LT-201", "the keyboard after its line went")
        page.check_focus(f"the work of {person}")
        pages.append(page)
    moved = sum(page.check_focus("all") for page in pages)
    print(f"{count} controls were pressed by keys, and the keyboard, which moved {moved} times, is never on the page's body")
    return pages
