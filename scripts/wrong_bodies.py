"""The wrong bodies that the gate leaves out: crates/NAME/edits.txt, with a section for each.

    == NAME
    tried: OUTCOME
    file: FILE
    old: TEXT
    new: TEXT

The lines from `file:` on are those of a file must-fail/NAME.edit. The line `tried:` says what scripts/try-edits said last; a body that
it never tried has no such line. An empty line stands before each section, and a comment before all of them.
"""

import dataclasses
import pathlib
import re

TOP = pathlib.Path(__file__).resolve().parent.parent
# what a try may say of an edit
REFUSED, AT_A_STEP, AT_A_LIMIT = "refused", "refused (a step)", "refused (a limit)"
PROVED, NOT_APPLIED = "STILL PROVED", "no longer applies"
OUTCOMES = (REFUSED, AT_A_STEP, AT_A_LIMIT, PROVED, NOT_APPLIED)


@dataclasses.dataclass
class Section:
    """A wrong body: its name, its lines from `file:` on, and what the last try said of it, if any."""

    name: str
    edit: str
    tried: str | None = None


def file_of(crate):
    return TOP / "crates" / crate / "edits.txt"


def crates():
    """The crates that keep such bodies."""
    return sorted(it.parent.name for it in (TOP / "crates").glob("*/edits.txt"))


def parse(text, name):
    """The comment and the sections of a text; a ValueError says which line of the file of this name is wrong."""
    comment, found = [], []
    for at, line in enumerate(re.findall(r"[^\n]*\n|[^\n]+", text), 1):

        def wrong(what, at=at):
            return ValueError(f"{name}:{at}: {what}")

        if head := re.fullmatch(r"== ([A-Za-z0-9_-][A-Za-z0-9_.-]*)\n", line):
            if any(it.name == head[1] for it in found):
                raise wrong(f"a second section {head[1]}")
            if found and not found[-1].edit:
                raise wrong(f"the section {found[-1].name} has no line file:")
            found.append(Section(head[1], ""))
        elif not found:
            comment.append(line)
        elif not line.strip():
            continue
        elif outcome := re.fullmatch(r"tried: (.*)\n", line):
            if found[-1].edit or found[-1].tried or outcome[1] not in OUTCOMES:
                raise wrong("what a try said stands once, below the name: " + ", ".join(OUTCOMES))
            found[-1].tried = outcome[1]
        elif re.match("(?:file|old|new):" if found[-1].edit else "file:", line) and line.endswith("\n"):
            found[-1].edit += line
        else:
            raise wrong("a section has a line file:, and then lines old: and new:")
    if found and not found[-1].edit:
        raise ValueError(f"{name}: the section {found[-1].name} has no line file:")
    return "".join(comment).rstrip("\n") + "\n", found


def read(crate):
    """The comment and the sections of a crate; of one that keeps no such bodies, nothing."""
    path = file_of(crate)
    return parse(path.read_bytes().decode(), path.relative_to(TOP).as_posix()) if path.exists() else ("", [])


def text_of(comment, found):
    """The comment and the sections as a text again."""
    tried = lambda it: f"tried: {it.tried}\n" if it.tried else ""
    return "\n".join([comment, *(f"== {it.name}\n{tried(it)}{it.edit}" for it in found)])


def keep(crate, said):
    """Writes into the file what a try said, by the name and the lines of a section: one that was changed meanwhile keeps what it has."""
    comment, found = read(crate)
    for it in found:
        it.tried = said.get((it.name, it.edit), it.tried)
    file_of(crate).write_bytes(text_of(comment, found).encode())
