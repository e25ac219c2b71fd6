# Files of the older schema, and their migration

  $ older() { python3 $EXAMPLES/older.py "$@"; }
  $ migrate() { shelfoffice --admin root --migrate "$@" <$EXAMPLES/units.http; }

What is asked of a file that was migrated: PT-101 in the last second of its shelf and at its end, a record, a shelf that is over, and a proposed matrix,
which is then approved; a grant gets an end.

  $ goes_on() { shelfoffice --admin root --db $1 <$EXAMPLES/migrated.http 2>&1 >answers; cmp answers $EXAMPLES/migrated.answers; rm answers; }

Nothing is served beside a migration, nor any port listened on, though one is named. The older file stays as it is, and so does what its log holds; the
engine adds a few bytes behind a log that SQLite wrote.

  $ keep() { sha256sum $1 >sums; cp $1-wal log; }
  $ is_kept() { sha256sum --quiet -c sums; cmp -n $(stat -c %s log) $1-wal log; }

  $ older --log older.db; keep older.db
  $ migrate older.db --db newer.db --port 1 --forever
  migrated
  $ is_kept older.db; ls newer.db*
  newer.db
  $ goes_on newer.db
  end: Closed
  $ rm *

A file without a log is left without one, under its own name and through a link:

  $ older closed.db; ln -s closed.db to-closed.db; sha256sum closed.db >sums
  $ for file in closed.db to-closed.db; do migrate $file --db newer.db; goes_on newer.db; rm newer.db*; done
  migrated
  end: Closed
  migrated
  end: Closed
  $ sha256sum --quiet -c sums; ls
  closed.db
  sums
  to-closed.db
  $ rm *

A log that is there stays, also where the file is reached through a link, and the file can be migrated again:

  $ older --log logged.db; ln -s logged.db to-logged.db; keep logged.db
  $ for file in to-logged.db logged.db; do migrate $file --db newer.db; goes_on newer.db; is_kept logged.db; rm newer.db*; done
  migrated
  end: Closed
  migrated
  end: Closed
  $ rm *

The new file has pages of 1,024 bytes and checksums, whichever pages the older one has, and these stay as they are:

  $ pages() { python3 -c "import sys; h = open(sys.argv[1], 'rb').read(21); print(int.from_bytes(h[16:18], 'big'), h[20])" $1; }
  $ for size in 512 1024 2048 4096 65536; do
  >   older --log --page $size older.db; keep older.db
  >   migrate older.db --db newer.db; is_kept older.db
  >   pages newer.db; goes_on newer.db; pages newer.db; rm *
  > done
  migrated
  1024 8
  end: Closed
  1024 8
  migrated
  1024 8
  end: Closed
  1024 8
  migrated
  1024 8
  end: Closed
  1024 8
  migrated
  1024 8
  end: Closed
  1024 8
  migrated
  1024 8
  end: Closed
  1024 8

No file is made beside a log:

  $ older older.db; echo log >alone.db-wal; sha256sum * >sums
  $ migrate older.db --db alone.db
  store: fault
  [3]
  $ sha256sum --quiet -c sums; ls
  alone.db-wal
  older.db
  sums
  $ rm *

Nor where one is, be it the older one; a file of today's schema needs no migration:

  $ older older.db; migrate older.db --db taken.db; sha256sum *.db >sums
  migrated
  $ migrate older.db --db taken.db
  store: fault
  [3]
  $ migrate older.db --db older.db
  store: fault
  [3]
  $ migrate taken.db --db other.db
  store: not this store
  [3]
  $ sha256sum --quiet -c sums; ls
  older.db
  sums
  taken.db
  $ rm *

Files that are not there, texts, beside which the engine leaves an empty log, and an older file of another administrator or of a schema that is not known:

  $ seq 100 >older.txt; older older.db; older later.db 'UPDATE office SET schema_no = 3'; sha256sum * >sums
  $ migrate missing.db --db newer.db
  store: not this store
  [3]
  $ migrate older.txt --db newer.db
  store: not this store
  [3]
  $ migrate later.db --db newer.db
  store: not this store
  [3]
  $ shelfoffice --admin ste --migrate older.db --db newer.db
  store: not this store
  [3]
  $ migrate older.db --db missing/newer.db
  store: fault
  [3]
  $ sha256sum --quiet -c sums; ls
  later.db
  older.db
  older.txt
  older.txt-wal
  sums
  $ rm *

Other databases:

  $ none() { older older.db "$1"; sha256sum older.db >sums; migrate older.db --db newer.db; local status=$?; sha256sum --quiet -c sums; ls newer* 2>/dev/null; rm *; return $status; }
  $ none 'UPDATE office SET schema_no = 2'
  store: not this store
  [3]
  $ none 'UPDATE office SET schema_no = 0'
  store: not this store
  [3]
  $ none "UPDATE office SET admin = 'ste'"
  store: not this store
  [3]
  $ none 'UPDATE office SET id = 2'
  store: not this store
  [3]
  $ none 'DELETE FROM office'
  store: not this store
  [3]
  $ none 'DROP TABLE office'
  store: not this store
  [3]

Rows that cannot be read, and tables that are missing:

  $ none "UPDATE units SET unit = 'u1'"
  store: fault
  [3]
  $ none 'UPDATE units SET last_s = -1'
  store: fault
  [3]
  $ none 'UPDATE units SET matrix_rev = 4294967296'
  store: fault
  [3]
  $ none "UPDATE grants SET role_no = 7 WHERE person = 'vic'"
  store: fault
  [3]
  $ none "UPDATE grants SET person = '' WHERE person = 'vic'"
  store: fault
  [3]
  $ none "UPDATE alarms SET state_no = 0 WHERE tag = 'PT-101'"
  store: fault
  [3]
  $ none "UPDATE shelves SET words = '' WHERE tag = 'PT-101'"
  store: fault
  [3]
  $ none 'UPDATE bands SET limit_s = -300 WHERE matrix_no = 2'
  store: fault
  [3]
  $ none 'UPDATE cells SET cell_no = 5 WHERE matrix_no = 2'
  store: fault
  [3]
  $ none "INSERT INTO events VALUES ('U1', 1, 825670800, 'PT-101', 7)"
  store: fault
  [3]
  $ none 'UPDATE records SET rev = -1'
  store: fault
  [3]
  $ none 'UPDATE changes SET state_no = 5 WHERE number = 2'
  store: fault
  [3]
  $ none 'DROP TABLE units'
  store: fault
  [3]
  $ none 'DROP TABLE grants'
  store: fault
  [3]
  $ none 'DROP TABLE records'
  store: fault
  [3]
  $ none 'DROP TABLE changes'
  store: fault
  [3]

What a migration that was cut off has left beside the new file goes, but not the older file, whatever its name:

  $ older older.db; echo half >newer.db.new; echo log >newer.db.new-wal
  $ migrate older.db --db newer.db; goes_on newer.db; ls newer.db*
  migrated
  end: Closed
  newer.db
  newer.db-wal
  $ rm *
  $ older named.db.new; sha256sum * >sums
  $ migrate ./named.db.new --db named.db
  store: fault
  [3]
  $ sha256sum --quiet -c sums; ls
  named.db.new
  sums
