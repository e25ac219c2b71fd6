"""What the tests share."""

import collections.abc
import os
import pathlib
import tempfile

os.environ["HYPOTHESIS_STORAGE_DIRECTORY"] = tempfile.mkdtemp(prefix="hypothesis-")

import hypothesis  # noqa: E402
import pytest  # noqa: E402

from companions.tests import plant  # noqa: E402

hypothesis.settings.register_profile("companions", database=None, deadline=None)
hypothesis.settings.load_profile("companions")


@pytest.fixture
def office(tmp_path: pathlib.Path) -> collections.abc.Iterator[plant.Plant]:
    """An office that runs over a new file."""
    found = plant.Plant(tmp_path / "office")
    found.start()
    try:
        yield found
    finally:
        found.stop()
