// The keyboard's place is never lost. If what has it is hidden, disabled or taken away, the next control of the same part gets it, else
// the heading of the part, else that of the view. A button that changes something in the office never gets it this way.

const CONTROLS = "a[href], button:not([data-acts]), input, select, summary";
const PARTS = "li, form, section, .panel, dialog, nav, header, main";
let last = null; // what has or had the keyboard, and the parts that it is in, the innermost first

const isUsable = (node) => node.isConnected && !node.disabled && node.checkVisibility({visibilityProperty: true});

function partsOf(node) {
    const parts = [];
    for (let part = node.parentElement?.closest(PARTS); part; part = part.parentElement?.closest(PARTS)) {
        parts.push(part);
    }
    return parts;
}

function nextControl(node, part) {
    const controls = [...part.querySelectorAll(CONTROLS)].filter((each) => each !== node && isUsable(each));
    const follows = (each) => node.compareDocumentPosition(each) & Node.DOCUMENT_POSITION_FOLLOWING;
    return (node.isConnected ? controls.find(follows) : null) ?? controls.at(-1) ?? null;
}

function focusHeading(part) {
    const heading = [...part.querySelectorAll("h2, h3")].find(isUsable);
    if (!heading) {
        return false;
    }
    heading.tabIndex = -1;
    heading.focus({preventScroll: true});
    return true;
}

function keepFocus() {
    const active = document.activeElement ?? document.body;
    if (last === null || (active !== document.body && isUsable(active)) || isUsable(last.node)) {
        return;
    }
    const {node, parts} = last;
    last = null;
    for (const part of parts.filter(isUsable)) {
        const next = part.matches("main, header") ? null : nextControl(node, part);
        if (next) {
            next.focus({preventScroll: true});
            return;
        }
        if (focusHeading(part)) {
            return;
        }
    }
    focusHeading(document.querySelector("main")) || document.querySelector("#unit").focus();
}

document.addEventListener("focusin", ({target}) => {
    last = {node: target, parts: partsOf(target)};
});
document.addEventListener("focusout", ({target, relatedTarget}) => {
    if (relatedTarget !== null || isUsable(target)) {
        last = null; // it goes elsewhere, or was left on purpose
    }
});
new MutationObserver(keepFocus).observe(document.body, {
    subtree: true, childList: true, attributes: true, attributeFilter: ["hidden", "disabled", "open", "data-view"],
});
