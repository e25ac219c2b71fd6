"""What a unit's changes say together: which wait, and which matrix is in force."""

import collections.abc

from companions import calls, matrix, values

# how the cause of a note begins: office successor leaves one in a unit for each alarm that it carries over
NOTE = "carried over from "


def is_note(change: calls.Change) -> bool:
    """Whether a change is such a note, and not meant to come into force."""
    return isinstance(change.content, values.Record) and change.content.cause.startswith(NOTE)


def waiting(changes: collections.abc.Iterable[calls.Change]) -> list[calls.Change]:
    return [it for it in changes if it.state is values.State.Proposed]


def matrix_in_force(changes: collections.abc.Iterable[calls.Change]) -> matrix.Matrix | None:
    """The matrix that was approved last. None if that of the opening is in force, which no call gives: the base of an approval is the revision
    before it."""
    approved = [it for it in changes if it.kind is values.Kind.matrix and it.state is values.State.Approved]
    content = max(approved, key=lambda it: it.base).content if approved else None
    return content if isinstance(content, matrix.Matrix) else None


def matrix_revision(changes: collections.abc.Iterable[calls.Change]) -> int:
    return sum(it.kind is values.Kind.matrix and it.state is values.State.Approved for it in changes)


def name_of(change: calls.Change) -> str:
    return "matrix" if change.tag is None else f"{change.kind.name} of {change.tag}"
