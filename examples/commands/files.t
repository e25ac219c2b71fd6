# Files: one that is made, one that is found again, and those that are refused

The program makes a file that is not there, and nothing is left of what it was made by. The same administrator finds in it what was answered; anyone
else is refused:

  $ shelfoffice --admin root --db made.db <$EXAMPLES/open.http
  HTTP/1.1 200 OK\r (esc)
  Content-Type: application/json\r (esc)
  Content-Length: 13\r (esc)
  \r (esc)
  {"done":true}end: Closed
  $ ls made.db*
  made.db
  made.db-wal
  $ shelfoffice --admin root --db made.db <$EXAMPLES/units.http
  HTTP/1.1 200 OK\r (esc)
  Content-Type: application/json\r (esc)
  Content-Length: 45\r (esc)
  \r (esc)
  {"units":[{"roles":["Steward"],"unit":"U1"}]}end: Closed
  $ shelfoffice --admin eve --db made.db <$EXAMPLES/units.http
  store: not this store
  [3]
  $ rm made.db*

New books have pages of 1,024 bytes, with checksums. Those that `sqlite3` made keep their pages, of whichever size, and go on without checksums:

  $ pages() { python3 -c "import sys; h = open(sys.argv[1], 'rb').read(21); print(int.from_bytes(h[16:18], 'big'), h[20])" $1; }
  $ sized() { python3 -c "import pathlib, sqlite3, sys; sqlite3.connect(sys.argv[1]).executescript(f'PRAGMA page_size = {sys.argv[2]};' + pathlib.Path(sys.argv[3]).read_text() + 'INSERT INTO office VALUES (1, 2, \"root\")')" "$@"; }
  $ shelfoffice --admin root --db sized.db <$EXAMPLES/open.http >/dev/null; pages sized.db; rm sized.db*
  end: Closed
  1024 8
  $ for size in 512 1024 2048 4096 65536; do
  >   sized sized.db $size $EXAMPLES/../schema.sql
  >   for turn in open units; do shelfoffice --admin root --db sized.db <$EXAMPLES/$turn.http 2>&1 | tail -1; done
  >   pages sized.db; rm sized.db*
  > done
  {"done":true}end: Closed
  {"units":[{"roles":["Steward"],"unit":"U1"}]}end: Closed
  512 0
  {"done":true}end: Closed
  {"units":[{"roles":["Steward"],"unit":"U1"}]}end: Closed
  1024 0
  {"done":true}end: Closed
  {"units":[{"roles":["Steward"],"unit":"U1"}]}end: Closed
  2048 0
  {"done":true}end: Closed
  {"units":[{"roles":["Steward"],"unit":"U1"}]}end: Closed
  4096 0
  {"done":true}end: Closed
  {"units":[{"roles":["Steward"],"unit":"U1"}]}end: Closed
  1 0

A file without a name, one in a folder that is not there, and a folder:

  $ shelfoffice --admin root --db '' <$EXAMPLES/open.http
  store: fault
  [3]
  $ shelfoffice --admin root --db missing/plant.db <$EXAMPLES/open.http
  store: fault
  [3]
  $ shelfoffice --admin root --db . <$EXAMPLES/open.http
  store: fault
  [3]
  $ ls -A

Whichever page has a bit turned, nothing is answered from the file:

  $ shelfoffice --admin root --db damaged.db <$EXAMPLES/open.http >/dev/null
  end: Closed
  $ turn() { python3 -c "import sys; f = open('damaged.db', 'r+b'); f.seek(int(sys.argv[1])); b = f.read(1); f.seek(-1, 1); f.write(bytes([b[0] ^ 1]))" $1; }
  $ asked() { shelfoffice --admin root --db damaged.db <$EXAMPLES/units.http 2>&1; }
  $ for at in $(seq 512 1024 $(stat -c %s damaged.db)); do turn $at; asked; turn $at; done | sort | uniq
  store: fault
  $ asked | tail -1
  {"units":[{"roles":["Steward"],"unit":"U1"}]}end: Closed
  $ rm damaged.db*

What a start that was cut off has left beside the file is no file of books, and goes:

  $ echo half >cut.db.new; echo log >cut.db.new-wal
  $ shelfoffice --admin root --db cut.db <$EXAMPLES/open.http | tail -1
  end: Closed
  {"done":true} (no-eol)
  $ ls cut.db*
  cut.db
  cut.db-wal
  $ shelfoffice --admin root --db cut.db <$EXAMPLES/units.http | tail -1
  end: Closed
  {"units":[{"roles":["Steward"],"unit":"U1"}]} (no-eol)
  $ rm cut.db*

An empty file and a text are not taken for books, nor written to. The engine leaves an empty log beside what it cannot read:

  $ touch empty.db; seq 100 >text.db; sha256sum empty.db text.db >sums
  $ for file in empty.db text.db empty.db text.db; do shelfoffice --admin root --db $file <$EXAMPLES/units.http; done
  store: not this store
  store: not this store
  store: not this store
  store: not this store
  [3]
  $ sha256sum --quiet -c sums; ls
  empty.db
  sums
  text.db
  text.db-wal
  $ rm *

A log without its file is not taken for new books, and stays:

  $ echo log >lone.db-wal
  $ shelfoffice --admin root --db lone.db <$EXAMPLES/open.http
  store: not this store
  [3]
  $ ls; cat lone.db-wal; rm *
  lone.db-wal
  log

A link to books leads to them:

  $ shelfoffice --admin root --db linked.db <$EXAMPLES/open.http | tail -1
  end: Closed
  {"done":true} (no-eol)
  $ ln -s linked.db to-books.db
  $ shelfoffice --admin root --db to-books.db <$EXAMPLES/units.http | tail -1
  end: Closed
  {"units":[{"roles":["Steward"],"unit":"U1"}]} (no-eol)
  $ rm *

No books are made through a link to an empty file or to nothing, as where the disk of the books is not there:

  $ touch bare.db; ln -s bare.db to-bare.db; ln -s nowhere.db to-nowhere.db
  $ shelfoffice --admin root --db to-bare.db <$EXAMPLES/open.http
  store: not this store
  [3]
  $ shelfoffice --admin root --db to-nowhere.db <$EXAMPLES/open.http
  store: not this store
  [3]
  $ stat -c '%n %s' *; rm *
  bare.db 0
  to-bare.db 7
  to-nowhere.db 10

Books with a second name are opened under neither, until that name is gone:

  $ shelfoffice --admin root --db named.db <$EXAMPLES/open.http | tail -1
  end: Closed
  {"done":true} (no-eol)
  $ ln named.db second.db
  $ shelfoffice --admin root --db named.db <$EXAMPLES/units.http
  store: fault
  [3]
  $ shelfoffice --admin root --db second.db <$EXAMPLES/units.http
  store: fault
  [3]
  $ rm second.db
  $ shelfoffice --admin root --db named.db <$EXAMPLES/units.http | tail -1
  end: Closed
  {"units":[{"roles":["Steward"],"unit":"U1"}]} (no-eol)
  $ rm *

The same of a database of another program, one without tables, and one of the older schema:

  $ make() { python3 -c "import sqlite3, sys; sqlite3.connect(sys.argv[1]).executescript(sys.argv[2])" "$@"; }
  $ make foreign.db 'CREATE TABLE shelves (book TEXT) STRICT'
  $ make blank.db 'CREATE TABLE shelves (book TEXT) STRICT; DROP TABLE shelves'
  $ python3 $EXAMPLES/older.py older.db
  $ sha256sum *.db >sums
  $ for file in *.db *.db; do shelfoffice --admin root --db $file <$EXAMPLES/units.http; done
  store: not this store
  store: not this store
  store: not this store
  store: not this store
  store: not this store
  store: not this store
  [3]
  $ sha256sum --quiet -c sums; ls
  blank.db
  blank.db-wal
  foreign.db
  foreign.db-wal
  older.db
  older.db-wal
  sums
