"""Makes a file of schema 1, in which PT-101 is shelved until eleven and has a record, the shelf of LT-2 is over, and a matrix is proposed.

    older.py [--log] [--page BYTES] FILE [STATEMENT..]

The statements come last. With --log the rows are left in FILE-wal, as by a program that is killed. Its pages have so many bytes, 4,096 by default.
"""

import os
import pathlib
import sqlite3
import sys

SCHEMA = pathlib.Path(__file__).resolve().parent.parent / "schema-1.sql"
ROWS = """
INSERT INTO office VALUES (1, 1, 'root');
INSERT INTO units VALUES ('U1', 825674400, 0, 0);
INSERT INTO grants VALUES ('U1', 'ste', 6), ('U1', 'ann', 2), ('U1', 'eve', 4), ('U1', 'abe', 5), ('U1', 'moe', 3), ('U1', 'vic', 1);
INSERT INTO alarms (unit, tag, latching, max_s, max_rev, state_no, suppressed) VALUES ('U1', 'PT-101', 0, 3600, 0, 1, 0), ('U1', 'LT-2', 1, 86400, 0, 1, 0);
INSERT INTO shelves VALUES ('U1', 'PT-101', 0, 825674400, 825678000, 'ann', 'pump test'), ('U1', 'LT-2', 0, 825667200, 825670800, 'ann', 'wiring');
INSERT INTO bands VALUES ('U1', 0, 1, 300), ('U1', 2, 1, 60);
INSERT INTO cells VALUES ('U1', 0, 1, 1, 3), ('U1', 0, 1, 2, 4), ('U1', 0, 2, 1, 1), ('U1', 0, 2, 2, 2), ('U1', 2, 1, 1, 3), ('U1', 2, 1, 2, 4), ('U1', 2, 2, 1, 1), ('U1', 2, 2, 2, 2);
INSERT INTO records VALUES ('U1', 'PT-101', 1, 1, 1);
INSERT INTO changes VALUES ('U1', 1, 'eve', 825670800, 1, 'PT-101', 0, 'seal leak', 'loss of pressure', 'close XV-7', 2, 120, NULL, 2, 'abe', 825670800),
    ('U1', 2, 'eve', 825670800, 2, NULL, 0, NULL, NULL, NULL, NULL, NULL, NULL, 1, NULL, NULL);
"""


def main():
    words = sys.argv[1:]
    has_log = words[:1] == ["--log"]
    words = words[has_log:]
    page = words[1] if words[:1] == ["--page"] else "4096"
    file, *statements = words[2:] if words[:1] == ["--page"] else words
    plant = sqlite3.connect(file, isolation_level=None)
    plant.execute(f"PRAGMA page_size = {page}")
    if has_log:
        plant.execute("PRAGMA journal_mode = WAL")
    for statement in (SCHEMA.read_text(), ROWS, *statements):
        plant.executescript(statement)
    if has_log:
        os._exit(0)
    plant.close()


main()
