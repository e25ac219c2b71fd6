"""How pages and tables are written."""

import csv
import io
import os
import pathlib
import threading

import pytest

from companions import pages


@pytest.mark.parametrize("text", ["=1+1", "@SUM(A1)", "+49 170", "-2", "\tx", "\rx", "\nx"])
def test_no_cell_of_a_csv_file_is_a_formula(text: str) -> None:
    header, row = csv.reader(io.StringIO(pages.csv_text(["words", text], [[text, -3]]), newline=""))
    assert header == ["words", f"'{text}"] and row == [f"'{text}", "-3"]


def test_other_cells_stay_as_they_are() -> None:
    assert pages.csv_text(["a"], [["1=1"], [""], [None], ["valve + cable"]]) == "a\r\n1=1\r\n\"\"\r\n\"\"\r\nvalve + cable\r\n"


def test_a_page_is_written_into_what_is_no_regular_file(tmp_path: pathlib.Path) -> None:
    pipe, read = tmp_path / "pipe", list[str]()
    os.mkfifo(pipe)
    reader = threading.Thread(target=lambda: read.append(pipe.read_text()), daemon=True)
    reader.start()
    pages.write("page", pipe)
    reader.join(10)
    assert read == ["page"] and pipe.is_fifo() and os.listdir(tmp_path) == ["pipe"]


@pytest.mark.parametrize("path", ["/dev/null", "/dev/stdout", "/proc/self/fd/1"])
def test_a_device_is_never_replaced(path: str) -> None:
    assert not pages.is_replaceable(pathlib.Path(path))


def test_a_link_is_followed(tmp_path: pathlib.Path) -> None:
    (tmp_path / "other").mkdir()
    for name in "there", "not yet":
        file, link = tmp_path / "other" / name, tmp_path / f"link to {name}"
        link.symlink_to(file)
        if name == "there":
            file.write_text("before")
            file.chmod(0o600)
        pages.write("page", link)
        assert link.is_symlink() and file.read_text() == "page"
    assert (tmp_path / "other/there").stat().st_mode & 0o777 == 0o600
    assert sorted(os.listdir(tmp_path / "other")) == ["not yet", "there"]
