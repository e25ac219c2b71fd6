# The words of the program, and how it ends

The administrator has to be named, and needs the name of a person:

  $ shelfoffice
  error: the following required arguments were not provided:
    --admin <NAME>
  
  Usage: shelfoffice --admin <NAME>
  
  For more information, try '--help'.
  [2]
  $ shelfoffice --admin 'two words'
  admin: not a person name
  [2]

Its help, and its version:

  $ shelfoffice --help
  Answers the control rooms of a plant, over standard input and output or over a port
  
  Usage: shelfoffice [OPTIONS] --admin <NAME>
  
  Options:
        --admin <NAME>     The administrator, who alone opens units
        --db <FILE>        Keeps the tables in FILE, created if missing [default: in memory]
        --migrate <OLD>    Copies OLD, a file of the schema before, to the new FILE and ends
        --port <N>         Serves connections to port N of 127.0.0.1
        --connections <N>  Ends after N connections [default: 1]
        --clients <N>      Serves N connections at once [default: 1; 256 with --forever]
        --forever          Serves connections to --port until the program is stopped or its store fails
        --idle <SECONDS>   Gives up a silent connection [default: never; 30 with --forever]
    -h, --help             Print help
    -V, --version          Print version
  
  Exit statuses:
    0  all requests answered, all connections served, OLD copied, help or version
    2  the command line is wrong, NAME is not a person's name, or --migrate without --db
    3  the books were not opened, OLD was not copied, or with --forever the store failed
    4  without a port: the input ended within a request, or its bytes are not requests
    5  without a port: a read failed, or a million were made
    6  without a port: a write failed
    7  out of memory, or an argument is not UTF-8
    8  listening or accepting failed
  $ shelfoffice --version
  shelfoffice 1.0.0
  $ shelfoffice -V
  shelfoffice 1.0.0

Words that are refused. They are read whole before any file is opened: the folder of this one is not there.

  $ refused() { shelfoffice --admin root --db missing/plant.db "$@" 2>said; local status=$?; head -1 said; return $status; }
  $ refused --port
  error: a value is required for '--port <N>' but none was supplied
  [2]
  $ refused --port 0
  error: invalid value '0' for '--port <N>': 0 is not in 1..=65535
  [2]
  $ refused --port 65536
  error: invalid value '65536' for '--port <N>': 65536 is not in 1..=65535
  [2]
  $ refused --port 8080 --connections 0
  error: invalid value '0' for '--connections <N>': 0 is not in 1..=1000
  [2]
  $ refused --port 8080 --connections 1001
  error: invalid value '1001' for '--connections <N>': 1001 is not in 1..=1000
  [2]
  $ refused --port 8080 --connections few
  error: invalid value 'few' for '--connections <N>': invalid digit found in string
  [2]
  $ refused --port 8080 --clients 0
  error: invalid value '0' for '--clients <N>': 0 is not in 1..=1000
  [2]
  $ refused --port 8080 --clients 1001
  error: invalid value '1001' for '--clients <N>': 1001 is not in 1..=1000
  [2]
  $ refused --port 8080 --clients few
  error: invalid value 'few' for '--clients <N>': invalid digit found in string
  [2]
  $ refused --port 8080 --idle 3601
  error: invalid value '3601' for '--idle <SECONDS>': 3601 is not in 1..=3600
  [2]
  $ refused --port 8080 --forever --connections 2
  forever: no port, or connections
  [2]
  $ refused --forever
  forever: no port, or connections
  [2]

A session ends with its input. One request from somebody without a role is answered before:

  $ shelfoffice --admin root </dev/null
  end: Closed
  $ shelfoffice --admin root <$EXAMPLES/status.http
  HTTP/1.1 403 Forbidden\r (esc)
  Content-Type: application/json\r (esc)
  Content-Length: 33\r (esc)
  \r (esc)
  {"name":"NotGranted","refused":3}end: Closed

Input that ends within a request, cannot be read, or whose answers cannot be written; an ending that cannot be told:

  $ head -c 20 $EXAMPLES/status.http | shelfoffice --admin root
  end: BrokenInput
  [4]
  $ shelfoffice --admin root </
  end: ReadFailed
  [5]
  $ shelfoffice --admin root <$EXAMPLES/status.http >/dev/full
  end: WriteFailed
  [6]
  $ shelfoffice --admin root 2>/dev/full </dev/null

A migration needs the administrator and a name for the new file. Its other words are read too, though it listens nowhere:

  $ shelfoffice --admin root --migrate words.db
  migrate: no db
  [2]
  $ shelfoffice --admin Root --migrate words.db --port 8080
  admin: not a person name
  [2]
  $ shelfoffice --migrate words.db --db none.db 2>&1 | head -1
  error: the following required arguments were not provided:
  $ shelfoffice --admin root --migrate 2>&1 | head -1
  error: a value is required for '--migrate <OLD>' but none was supplied
  $ shelfoffice --admin root --migrate words.db --db none.db --port 0 2>&1 | head -1
  error: invalid value '0' for '--port <N>': 0 is not in 1..=65535

A port that is taken is told only after the file was opened:

  $ python3 -c "import socket, time; it = socket.create_server(('127.0.0.1', 0)); print(it.getsockname()[1], flush=True); time.sleep(60)" >port & sleep 0.1
  $ until [ -s port ]; do sleep 0.1; done
  $ shelfoffice --admin root --port $(cat port)
  net: failed
  [8]
  $ shelfoffice --admin root --port $(cat port) --clients 2
  net: failed
  [8]
  $ shelfoffice --admin root --port $(cat port) --db missing/plant.db
  store: fault
  [3]
  $ kill $!; rm port

None of these has left a file:

  $ rm said; ls
