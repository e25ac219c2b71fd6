// Making and filling elements. Whatever is shown is put in as text, never as HTML.

export const $ = (id) => document.getElementById(id);

export function make(name, kind, ...inside) {
    const node = document.createElement(name);
    if (kind) {
        node.className = kind;
    }
    node.append(...inside);
    return node;
}

export function makeLink(kind, text, address) {
    const link = make("a", kind, text);
    link.href = address;
    return link;
}

export function say(node, text) {
    if (node.textContent !== text) {
        node.textContent = text;
    }
}

// An attribute; null takes it away.
export function put(node, name, value) {
    if (value === null) {
        node.removeAttribute(name);
    } else if (node.getAttribute(name) !== value) {
        node.setAttribute(name, value);
    }
}

// A list of rows that are kept and filled anew, so that the keyboard's place is kept too. `list` has the place, how many children
// come before the rows, a map of the rows by key, and what makes one. A list with `lookOf` draws a row only if its item is another one, or
// if what else the row is drawn from, as a text, is another.
export function fill(list, items, keyOf = (item) => item.tag) {
    let focused = document.activeElement;
    const keys = new Set(items.map(keyOf));
    for (const [key, row] of list.rows) {
        if (!keys.has(key)) {
            if (row.node.contains(focused)) {
                const beside = row.node.nextElementSibling ?? row.node.previousElementSibling;
                focused = beside?.querySelector("a") ?? focused; // the line after it, else the one before
            }
            row.node.remove();
            list.rows.delete(key);
        }
    }
    let there = list.place.children[list.skip] ?? null;
    for (const item of items) {
        const key = keyOf(item);
        let row = list.rows.get(key);
        if (!row) {
            row = list.make(key);
            list.rows.set(key, row);
        }
        if (there === row.node) {
            there = there.nextElementSibling;
        } else {
            list.place.insertBefore(row.node, there);
        }
        const look = list.lookOf?.(item);
        if (look === undefined || row.item !== item || row.look !== look) {
            row.show(item);
            Object.assign(row, {item, look});
        }
    }
    if (document.activeElement !== focused && focused !== null && focused.isConnected) {
        focused.focus({preventScroll: true});
    }
}

// A list of facts: a name and a value each. Gives the value's element by the name.
export function makeFacts(place, names) {
    const values = {};
    for (const name of names) {
        values[name] = make("dd", "");
        place.append(make("div", "", make("dt", "", name), values[name]));
    }
    return values;
}

export function showFact(value, text) {
    value.parentElement.hidden = text === null;
    say(value, text ?? "");
}

// The answer of a form. Whoever is at the form sees it: the page scrolls as far as needed.
export function sayAnswer(form, text, kind) {
    const answer = form.querySelector(".answer");
    answer.className = `answer ${kind}`;
    say(answer, text);
    if (text !== "" && form.contains(document.activeElement)) {
        answer.scrollIntoView({block: "nearest"});
    }
}

// Whether each field of a form is right. `checks` are the fields, each with whether it is right and what is wanted; the first wrong one
// gets the focus, and the form's answer says what is wanted, until something is typed.
export function areRight(form, checks) {
    let first = null;
    for (const [field, isRight, wanted] of checks) {
        put(field, "aria-invalid", isRight ? null : "true");
        if (!isRight) {
            first ??= [field, wanted];
        }
    }
    if (first !== null) {
        sayAnswer(form, first[1], "refused wanted");
        first[0].focus();
    }
    return first === null;
}

document.addEventListener("input", (event) => {
    const form = event.target.form;
    if (form?.querySelector(".answer.wanted")) {
        put(event.target, "aria-invalid", null);
        sayAnswer(form, "", "");
    }
});
