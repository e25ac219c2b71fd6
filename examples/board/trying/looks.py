"""By night, on paper, in the computer's own colours, and for screen readers."""

import base64
import json
import re

from trying.browser import LOW_CONTRAST, Page
from trying.common import expect, moment_now, moment_text, wait_for

GROUND = "getComputedStyle(document.body).backgroundColor.match(/[\\d.]+/g).slice(0, 3).map(Number)"
MARKS = "[...document.querySelectorAll('#alarm-table .mark')].map((mark) => [mark.getAttribute('class'), mark.querySelector('.whole').getAttribute('d')])"
CONTROLS = "[...document.querySelectorAll('button, input, select, textarea, nav a, form')].filter((node) => node.checkVisibility()).length"
ON_PAPER = "document.querySelector('#alarm-paper').textContent.split('\\n').filter((line) => /^\\S/.test(line)).length"
ROWS = "[...document.querySelectorAll('#alarm-table tbody')].filter((row) => row.checkVisibility()).length"
VIEWS = {"ann": ["#U1", "#U1/PT-301", "#U1/import"], "kim": ["#U1/changes", "#U1/changes/25", "#U1/matrix", "#U1/register"], "ste": ["#U1/roles"]}


def emulate(page, media="", **features):
    names = {"scheme": "prefers-color-scheme", "forced": "forced-colors"}
    page.send("Emulation.setEmulatedMedia", media=media, features=[{"name": names[name], "value": value} for name, value in features.items()])


def is_dark(page):
    return max(page.value(GROUND)) < 64


def ready(page, address):
    page.go(address)
    shown = {"matrix": "#matrix", "register": "#register", "import": "#import", "roles": "#roles", "changes": "#change-list li"}
    wanted = shown.get((address + "//").split("/")[1], "#alarm-facts" if "/" in address else "#alarm-table tbody")
    wait_for(f"the view {address}", lambda: page.is_shown(wanted))
    if address == "#U1/changes/25":
        wait_for("the grid", lambda: page.is_shown("#change-content .compared li"), 20)


def live_of(page, selector):
    root = page.send("DOM.getDocument")["root"]["nodeId"]
    node = page.send("DOM.querySelector", nodeId=root, selector=selector)["nodeId"]
    [found] = page.send("Accessibility.getPartialAXTree", nodeId=node, fetchRelatives=False)["nodes"]
    return next((item["value"]["value"] for item in found.get("properties", []) if item["name"] == "live"), None)


def try_night(site, browser, pictures):
    pages, texts = [], 0
    for person, addresses in VIEWS.items():
        page = Page(browser, site.address(person, "#U1"))
        pages.append(page)
        for address in addresses:
            ready(page, address)
            marks = page.value(MARKS)
            emulate(page, scheme="dark")
            expect(is_dark(page), True, f"{address} by night")
            expect(page.value(MARKS), marks, f"the marks of {address} by night")
            texts += page.check_looks(f"{address} by night")[0]
            page.check_narrow(f"{address} by night")
            emulate(page, forced="active", scheme="dark")
            page.check_looks(f"{address} in forced colours")
            emulate(page, scheme="light")
            expect(is_dark(page), False, f"{address} by day")
            texts += page.check_looks(f"{address} by day")[0]
    ann = pages[0]
    # the switch, by keys, is stronger than the computer, and is kept
    ready(ann, "#U1")
    ann.tab_to("colours", back=True)
    ann.choose("dark")
    expect(is_dark(ann), True, "the page after dark was chosen")
    ann.send("Page.reload")
    wait_for("the page again", lambda: ann.is_shown("#alarm-table tbody"), 20)
    expect((is_dark(ann), ann.value("document.querySelector('#colours').value")), (True, "dark"), "the page after loading anew")
    wait_for("the floods", lambda: ann.is_shown(".flood"))
    if pictures:
        ann.picture(pictures / "board-dark.png")
    ann.tab_to("colours")
    ann.choose("light")
    emulate(ann, scheme="dark")
    expect(is_dark(ann), False, "the page after light was chosen")
    ann.key("Home")
    expect(is_dark(ann), True, "the page as the computer")
    # the computer's own colours: what was an area has a border, and marks have outlines
    emulate(ann, forced="active")
    borders = "[...document.querySelectorAll('.flood')].map((bar) => getComputedStyle(bar, '::before').borderTopStyle)"
    expect(set(ann.value(borders)), {"solid"}, "the borders of the floods")
    expect(ann.value("matchMedia('(forced-colors: active)').matches"), True, "forced colours")
    emulate(ann)
    print(f"by night and by day {texts} texts and marks of {sum(map(len, VIEWS.values()))} views have contrast; a switch that is kept; forced colours")
    return pages


def pages_of(page):
    pdf = base64.b64decode(page.send("Page.printToPDF", preferCSSPageSize=True, printBackground=True)["data"])
    return len(re.findall(rb"/Type\s*/Page\b", pdf)), re.findall(rb"/MediaBox\s*\[([^\]]*)\]", pdf)


def try_paper(site, browser, pictures):
    page = Page(browser, site.address("ann", "#U1"))
    page.key("/")
    page.type("LT-20")
    expect(page.value(ROWS), 4, "the lines that are found")
    # what is printed, as the browser announces it
    page.value(f"addEventListener('beforeprint', () => {{ window.printed = {ON_PAPER}; }})")
    sheets, boxes = pages_of(page)
    expect(page.value("window.printed"), len(site.read("ann", "/units/U1/alarms").splitlines()) - 1, "the alarms on paper")
    expect(page.value(ROWS), 4, "the lines that are found, afterwards")
    widths = {tuple(round(float(number)) for number in box.split()) for box in boxes}
    expect(widths, {(0, 0, 595, 842)}, "the sheets' size, A4")
    expect(sheets in (1, 2, 3), True, f"{sheets} sheets")
    page.type("")
    page.value("document.querySelector('#alarms-title').focus()")  # which is on paper, too
    page.value("dispatchEvent(new Event('beforeprint'))")
    emulate(page, media="print", scheme="dark")
    page.resize(718, 1240)
    expect(page.value(CONTROLS), 0, "controls on paper")
    expect([page.is_shown(part) for part in ["#clock .date", "#alarm-paper", "#colours-label"]], [True, True, False],
           "the day, the alarms and the choice of colours on paper")
    expect(is_dark(page), False, "dark paper")
    expect(page.value(LOW_CONTRAST)[1], [], "a contrast of at least 4.5 on paper")
    if pictures:
        page.picture(pictures / "board-print.png")
    page.value("dispatchEvent(new Event('afterprint'))")
    expect(page.focus(), "alarms-title", "what has the keyboard after printing")
    page.resize(1280, 1240)
    for address in ["#U1/PT-301", "#U1/changes"]:
        emulate(page)
        ready(page, address)
        page.value("[...document.querySelectorAll('h2')].find((node) => node.tabIndex === -1 && node.checkVisibility()).focus()")
        emulate(page, media="print")
        expect(page.value(CONTROLS), 0, f"controls of {address} on paper")
    emulate(page)
    # long lists: those that are on the page are the first fifty, and on paper all
    many = Page(browser, site.address("una", "#U3"))
    many.press("Proposals")
    lines = lambda: many.value("document.querySelectorAll('#change-list li').length")
    wait_for("fifty lines", lambda: lines() == 50, 30)
    looked_at = lambda: many.text("#changes-note")
    wait_for("all changes", lambda: "All 2000 changes were looked at." in looked_at(), moves=looked_at)
    many.value("dispatchEvent(new Event('beforeprint'))")
    expect(lines(), 2000, "the proposals on paper")
    many.value("dispatchEvent(new Event('afterprint'))")
    expect(lines(), 50, "the proposals afterwards")
    print(f"on paper: {sheets} sheets of A4 with the whole list, though a part was searched, and 2,000 proposals; in light colours, without controls")
    return [page, many]


def try_announcing(site, browser):
    page = Page(browser, site.address("ann", "#U2"))
    wait_for("the alarms", lambda: page.value("document.querySelectorAll('#alarm-table tbody').length") == 2)
    lives = {"#news": "polite", "#notice-words": "polite", "#trouble-words": "assertive", "#ahead-words": "assertive"}
    page.value("document.querySelector('#trouble').hidden = document.querySelector('#notice').hidden = document.querySelector('#ahead').hidden = false")
    page.value("['trouble-words', 'notice-words', 'ahead-words', 'news'].forEach((id) => { document.getElementById(id).textContent = 'x'; })")
    expect({selector: live_of(page, selector) for selector in lives}, lives, "what screen readers hear at once")
    page.value("document.querySelector('#trouble').hidden = document.querySelector('#notice').hidden = document.querySelector('#ahead').hidden = true")
    last = 9000
    for event, words in [("ACT", "PT-11: Unacknowledged"), ("ACK", "PT-11: Acknowledged"), ("RTN", "PT-11: Normal")]:
        last += 1
        moment = moment_text(moment_now())
        status, text = site.ask("ann", "/units/U2/imports", f"seq,moment,tag,event\n{last},{moment},PT-11,{event}\n")
        expect((status, json.loads(text)["new"]), (200, 1), "an event")
        page.await_text("#news", words)
    page.go("#U2/PT-11")
    wait_for("the forms", lambda: page.is_shown("#shelving"))
    page.value("document.querySelectorAll('.answer').forEach((node) => { node.textContent = 'x'; })")
    expect(live_of(page, "#shelving .answer"), "polite", "the answers of a form")
    page.go("#U2")
    print("each change of an alarm's state is announced to screen readers, as are answers, notices and troubles")
    return [page]


def try_looks(site, browser, pictures):
    return [*try_night(site, browser, pictures), *try_paper(site, browser, pictures), *try_announcing(site, browser)]
