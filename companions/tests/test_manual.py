"""The help of each command, and the man pages that are made of it."""

import shutil
import subprocess

import click
import pytest

from companions import main, manual
from companions.tests.plant import office as typed

COMMANDS = sorted(main.office.commands)


@pytest.mark.parametrize("name", COMMANDS)
def test_each_command_has_help_that_is_enough(name: str) -> None:
    said = typed(name, "--help")
    assert said.returncode == 0 and said.stdout.startswith(f"Usage: office {name} [OPTIONS]")
    assert "Status: 0 " in said.stdout
    command = main.office.commands[name]
    for param in command.params:
        assert not isinstance(param, click.Option) or param.help, f"{name} says nothing of {param.opts}"
    changes = any(it.name == "dry_run" for it in command.params)
    assert changes == (name in ("open", "join", "leave", "load", "approve", "feed", "successor", "shelve", "unshelve", "out", "back", "describe"))
    assert ("Sign-on: " in said.stdout) == any(it.name == "caller" for it in command.params)


def test_no_password_stands_on_the_command_line() -> None:
    for command in main.office.commands.values():
        assert not any("password" in opt or "token" in opt or "user" in opt for param in command.params for opt in param.opts)


def test_each_command_has_a_man_page() -> None:
    pages = manual.pages()
    assert sorted(pages) == sorted(["office.1", *(f"office-{it}.1" for it in COMMANDS)])
    for name in COMMANDS:
        for param in main.office.commands[name].params:
            if isinstance(param, click.Option):
                assert param.opts[0].replace("-", r"\-") in pages[f"office-{name}.1"]


@pytest.mark.skipif(shutil.which("man") is None, reason="man is not installed")
@pytest.mark.parametrize("name", ["office", *(f"office-{it}" for it in COMMANDS)])
def test_man_reads_the_page_without_a_warning(name: str) -> None:
    words = ["man", "--warnings", "--local-file", "-"]
    settings = {"MANWIDTH": "100", "LC_ALL": "C.UTF-8", "PATH": "/usr/bin:/bin"}
    said = subprocess.run(words, input=manual.pages()[f"{name}.1"], capture_output=True, text=True, env=settings, check=False)
    assert said.returncode == 0 and said.stderr == "" and "EXIT STATUS" in said.stdout + "EXIT STATUS" * (name == "office")
