"""A unit's matrix: which priority an alarm gets by its severity and its time to respond."""

import bisect
import dataclasses
import pathlib
import tomllib
import typing

from companions import sheets, values

CELLS = ("P1", "P2", "P3", "P4", "N")


@dataclasses.dataclass(frozen=True)
class Matrix:
    """Rows of cells, severity 1 first, each with a cell for every band of times; `bands` has their limits."""

    bands: tuple[int, ...]
    cells: tuple[tuple[str, ...], ...]

    def priority(self, severity: int, response: int) -> str | None:
        """The priority, `N` where no alarm is needed, None where the matrix has no row of this severity."""
        if not 1 <= severity <= len(self.cells):
            return None
        return self.cells[severity - 1][bisect.bisect_right(self.bands, response)]

    def members(self) -> dict[str, object]:
        return {"bands": list(self.bands), "cells": [list(it) for it in self.cells]}


def of_members(members: typing.Mapping[str, typing.Any]) -> Matrix:
    return Matrix(tuple(members["bands"]), tuple(tuple(it) for it in members["cells"]))


def read_matrix(path: pathlib.Path) -> Matrix:
    """The matrix of a TOML file: `bands = [300]` and `cells = [["P3", "P4"], ["P1", "P2"]]`."""
    try:
        members = tomllib.loads(path.read_text(encoding="utf-8"))
    except (OSError, ValueError) as error:
        raise sheets.Wrong(f"{path}: {error}") from error
    wrong = fault_of(members)
    if wrong:
        raise sheets.Wrong(f"{path}: {wrong}")
    return of_members(members)


def fault_of(members: typing.Mapping[str, typing.Any]) -> str:
    """What is wrong with the members of a matrix, if anything."""
    bands, cells = members.get("bands"), members.get("cells")
    if set(members) != {"bands", "cells"} or not isinstance(bands, list) or not isinstance(cells, list):
        return 'it needs bands and cells, and nothing else: bands = [300], cells = [["P3", "P4"], ["P1", "P2"]]'
    if len(bands) > 4 or any(type(it) is not int or not 1 <= it <= values.MAX_SECONDS for it in bands) or sorted(set(bands)) != bands:
        return "bands are at most 4 rising times of 1 to 604800 seconds"
    if not 1 <= len(cells) <= values.MAX_SEVERITY or any(not isinstance(it, list) or len(it) != len(bands) + 1 for it in cells):
        return "cells are 1 to 5 rows, each with one cell more than there are bands"
    if any(it not in CELLS for row in cells for it in row):
        return "a cell is P1, P2, P3, P4 or N"
    ranks = [[CELLS.index(it) for it in row] for row in cells]
    if any(row != sorted(row) for row in ranks) or any(lower < upper for below, above in zip(ranks, ranks[1:]) for lower, upper in zip(below, above)):
        return "more severity or less time must not lead to a lower cell"
    return ""
