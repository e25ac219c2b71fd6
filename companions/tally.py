"""What a command did: its progress, and the count at its end."""

import collections.abc
import contextlib
import types
import typing

import click
import rich.console
import rich.progress

from companions import calls, connection

# the office would refuse every further call alike
HOPELESS = ("NotGranted", "RoleLacking", "MomentBehind", "UnitFull", "NotAdministrator")
Item = typing.TypeVar("Item")


@contextlib.contextmanager
def progress(words: str, total: float | None) -> collections.abc.Iterator[collections.abc.Callable[[float], None]]:
    """A bar on standard error, if that is a terminal; yields the function that moves it on."""
    console = rich.console.Console(stderr=True)
    if not console.is_terminal:
        yield lambda by: None
        return
    shown = rich.progress
    columns = (shown.TextColumn("{task.description}"), shown.BarColumn(), shown.MofNCompleteColumn(), shown.TimeRemainingColumn())
    with rich.progress.Progress(*columns, console=console, transient=True) as bar:
        task = bar.add_task(words, total=total)
        yield lambda by: bar.advance(task, by)


def over(items: collections.abc.Iterable[Item], words: str, total: float | None = None) -> collections.abc.Iterator[Item]:
    """The items, with a bar that moves on with each."""
    size = len(items) if isinstance(items, collections.abc.Sized) else total
    with progress(words, size) as advance:
        for it in items:
            yield it
            advance(1)


class Tally:
    """Counts what was done, was there already and was refused, and prints the counts also if the command is stopped."""

    def __init__(self, is_dry: bool = False, hopeless: collections.abc.Collection[str] = HOPELESS) -> None:
        self.is_dry, self.hopeless = is_dry, hopeless
        self.done = self.there = 0
        self.refused: list[str] = []
        self.unlisted = 0  # what was refused besides, and is listed elsewhere
        self.shown = 0

    def __enter__(self) -> "Tally":
        return self

    def __exit__(self, kind: type[BaseException] | None, error: BaseException | None, trace: types.TracebackType | None) -> None:
        self.show_refused()
        is_stopped = kind is not None and issubclass(kind, (KeyboardInterrupt, click.Abort, connection.Trouble, connection.Refusal))
        if is_stopped:
            click.echo("stopped before the end: what is done stands; type the same line again, and it goes on")
        if kind is None or is_stopped:
            words = "would be done" if self.is_dry else "done"
            click.echo(f"{words} {self.done:,}, there already {self.there:,}, refused {len(self.refused) + self.unlisted:,}")

    def show_refused(self) -> None:
        """Prints each refusal once."""
        for it in self.refused[self.shown :]:
            click.echo(it)
        self.shown = len(self.refused)

    def count(self, outcome: calls.Outcome) -> None:
        self.done += outcome is calls.Outcome.done
        self.there += outcome is calls.Outcome.there

    def refuse(self, what: str, refusal: connection.Refusal) -> None:
        """Notes a refusal; goes no further where all that follow would be refused alike."""
        self.refused.append(f"refused: {what}: {refusal.name}: {refusal.line}")
        if refusal.name in self.hopeless:
            raise connection.Trouble(f"{refusal.name}: the office would refuse all that follows")

    def make(self, what: str, call: collections.abc.Callable[[], calls.Outcome]) -> bool:
        """Makes a change, or only says so; whether it stands."""
        if self.is_dry:
            click.echo(f"would: {what}")
            self.done += 1
            return True
        try:
            self.count(call())
        except connection.Refusal as refusal:
            self.refuse(what, refusal)
            return False
        return True

    def status(self) -> int:
        return 1 if self.refused or self.unlisted else 0
