"""`python3 -m companions` is the command `office`."""

from companions.main import main

main()
