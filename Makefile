.PHONY: run build deb deb-tools check check-companions test conform

# Runs the example's requests, shows the answers and compares them with the expected ones. Nothing is proved first.
run:
	scripts/run-first-shelf

# Proves the program, crates side by side, and leaves it at out/shelfoffice.
build:
	scripts/build

# The Debian package of the program that `make build` left: out/shelfoffice_VERSION_amd64.deb. Needs debhelper.
deb:
	packaging/build

# The Debian package of the companions: out/shelfoffice-tools_VERSION_all.deb. Needs debhelper, dh-python and the companions' libraries.
deb-tools:
	packaging/build-tools

# In some three minutes all that tests the program that `make build` left; nothing is proved.
check:
	scripts/check-schema
	scripts/list-worked
	scripts/check-pages
	scripts/check-reach
	scripts/check-openapi
	scripts/try-commands out/shelfoffice
	scripts/type-docs
	scripts/conform --seed 1 out/shelfoffice

# In some five minutes the companions, on the program that `make build` left: style, types, tests, and the lines of their page.
check-companions:
	companions/check

# The gate: the schema in examples/, the lists in docs/WORKED.md and what the pages name, then every proof, the must-fail edits, the tests,
# and the programs, and the proved program on the commands and the worked examples. A toolchain that has rt ci --anew does not do again
# what an earlier run on this machine passed on the same files, unless with ANEW=--anew.
test:
	scripts/check-schema
	scripts/list-worked
	scripts/check-pages
	scripts/check-reach
	rt ci $(ANEW)
	$(MAKE) --no-print-directory conform

# The program that the gate proved, on the commands and the worked examples.
conform:
	scripts/try-commands
	scripts/conform --seed 1 crates/shelfoffice/out/shelfoffice
