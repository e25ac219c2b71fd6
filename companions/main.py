"""The command `office` with its sub-commands."""

import collections.abc
import signal
import sys
import types

import click

import companions
from companions import approve, at_hand, connection, describe, feed, filling, handover, holders, joining, leaving, load, monitor, opening
from companions import reporting, sheets, successor

MODULES = (opening, joining, leaving, load, approve, feed, handover, reporting, monitor, filling, successor, holders, describe)
COMMANDS = (
    *(it.command for it in MODULES), at_hand.show, at_hand.shelves, at_hand.shelve, at_hand.unshelve, at_hand.out, at_hand.back,
)


@click.group(context_settings={"help_option_names": ["-h", "--help"], "max_content_width": 140})
@click.version_option(companions.VERSION, prog_name="office")
def office() -> None:
    """Stands beside an alarm office, and uses its HTTP interface and its backups alone.

    A person signs on to the proxy with OFFICE_USER and OFFICE_PASSWORD, with OFFICE_TOKEN, or with an entry of ~/.netrc (or NETRC), never on the
    command line. For trials --as PERSON and --at MOMENT speak to the office's own port.

    Each command that changes something may be stopped at any moment and typed again: what is done is recognised. It ends with a count of what was
    done, was there already and was refused.
    """


SIGN_ON = """Sign-on: OFFICE_USER and OFFICE_PASSWORD, or OFFICE_TOKEN, in the environment; or an entry of ~/.netrc (or the file that NETRC names)
with the proxy's host. For trials --as and --at in place of it."""

for it in COMMANDS:
    if any(option.name == "caller" for option in it.params):
        it.epilog = SIGN_ON
    office.add_command(it)


def stop(number: int, frame: types.FrameType | None) -> None:
    raise KeyboardInterrupt


def run(words: collections.abc.Sequence[str] | None = None) -> int:
    """Runs a command line, and gives its status."""
    try:
        status = office.main(words, prog_name="office", standalone_mode=False)
        return status if isinstance(status, int) else 0
    except click.ClickException as error:
        error.show()
        return 2
    except (click.exceptions.Abort, KeyboardInterrupt):
        return 130
    except sheets.Wrong as error:
        click.echo(str(error), err=True)
        return 2
    except connection.Trouble as error:
        click.echo(f"office: {error}", err=True)
        return 3 if isinstance(error, connection.NotReached) else 1
    except connection.Refusal as error:
        click.echo(f"office: the office refuses: {error.name}: {error.line}", err=True)
        return 1


def main() -> None:
    signal.signal(signal.SIGTERM, stop)
    sys.exit(run())
