"""Man pages, made from the help of the commands.

    python3 -m companions.manual FOLDER
"""

import pathlib
import re
import sys

import click

import companions
from companions import main

ENVIRONMENT = {
    "OFFICE_URL": "The address of the proxy, if --url does not name one.",
    "OFFICE_USER, OFFICE_PASSWORD": "Name and password of the sign-on.",
    "OFFICE_TOKEN": "A token in their place, which is sent as a Bearer.",
    "NETRC": "A file of names and passwords by host, in place of ~/.netrc.",
    "OFFICE_CA": "The plant's own certificates, if --ca does not name them.",
    "OFFICE_OFFICES": "The plant's offices, if --offices does not name them.",
    "OFFICE_ZONE": "The plant's time zone, if --zone does not name one.",
    "OFFICE_DESCRIPTIONS": "The file of office describe, if --descriptions (or --into) does not name one.",
    "OFFICE_BACKUP": "A backup, or a folder of backups, if --backup does not name one.",
}


def escaped(text: str) -> str:
    """A text as roff has it; no line begins with a control character."""
    found = text.replace("\\", r"\e").replace("-", r"\-")
    return re.sub(r"^([.'])", r"\\&\1", found, flags=re.MULTILINE)


def paragraphs(text: str) -> list[str]:
    """The help of a command in roff: paragraphs, and blocks that keep their lines."""
    found = []
    for part in re.split(r"\n\s*\n", text.strip()):
        if part.lstrip().startswith("\b"):
            lines = part.replace("\b", "").strip("\n").splitlines()
            found += [".PP", ".nf", *(escaped(it) for it in lines), ".fi"]
        else:
            found += [".PP", escaped(" ".join(part.split()))]
    return found


def option_lines(command: click.Command) -> list[str]:
    context = click.Context(command, info_name="office")
    found = []
    for param in command.get_params(context):
        record = param.get_help_record(context)
        if record is not None:
            found += [".TP", rf"\fB{escaped(record[0])}\fR", escaped(" ".join(record[1].split())) or r"\&"]
    return found


def split_help(command: click.Command) -> tuple[str, str, str]:
    """The first sentence, the rest, and what is said of the status."""
    first, _, rest = (command.help or "").strip().partition("\n\n")
    text, _, status = rest.rpartition("Status: ") if "Status: " in rest else (rest, "", "")
    return " ".join(first.split()), text, status


def page(name: str, command: click.Command, others: list[str]) -> str:
    """The man page of a command."""
    context = click.Context(command, info_name=name.replace("-", " ", 1))
    first, text, status = split_help(command)
    # one page says in its first line what the command does
    summary = first.rstrip(".")
    lines = [
        f'.TH {name.upper()} 1 "" "shelfoffice-tools {companions.VERSION}" "User Commands"',
        ".SH NAME",
        f"{escaped(name)} \\- {escaped(summary[0].lower() + summary[1:])}",
        ".SH SYNOPSIS",
        rf"\fB{escaped(context.command_path)}\fR " + escaped(" ".join(command.collect_usage_pieces(context))),
        ".SH DESCRIPTION",
        escaped(first),
        *paragraphs(text),
        ".SH OPTIONS",
        *option_lines(command),
    ]
    if isinstance(command, click.Group):
        lines.append(".SH COMMANDS")
        for it in sorted(command.commands):
            lines += [".TP", rf"\fBoffice\-{escaped(it)}\fR(1)", escaped(split_help(command.commands[it])[0])]
    if status:
        lines += [".SH EXIT STATUS", escaped(" ".join(status.split()))]
    lines.append(".SH ENVIRONMENT")
    for variable, words in ENVIRONMENT.items():
        lines += [".TP", rf"\fB{variable}\fR", escaped(words)]
    lines += [".SH SEE ALSO", ", ".join(rf"\fB{escaped(it)}\fR(1)" for it in others if it != name)]
    return "\n".join(lines) + "\n"


def pages() -> dict[str, str]:
    """All man pages, by the names of their files."""
    commands: dict[str, click.Command] = {"office": main.office} | {f"office-{name}": it for name, it in main.office.commands.items()}
    names = sorted(commands)
    return {f"{name}.1": page(name, commands[name], names) for name in names}


if __name__ == "__main__":
    for file, page_text in pages().items():
        pathlib.Path(sys.argv[1], file).write_text(page_text)
