# Builds the program, runs a tour of it, and checks the repository.

.PHONY: all library program web example demo check bench guide definitions install uninstall deb dist clean

PREFIX ?= /usr/local
# The folder of the libraries. Some systems have a separate folder for each processor architecture.
LIBDIR ?= $(PREFIX)/lib

# Proves the program and the crates below it, and builds bin/ribjasper.
all:
	tools/build/build.sh

# Proves the C library (include/ribjasper.h) and builds it in lib/, for dynamic and static linking. `make library
# TARGET=x86_64-pc-windows-gnu` builds it for another system in lib/TARGET (tools/build/build_target.sh lists the targets).
# A library that is built with CPU=x86-64-v3 runs only on newer processors.
library:
	TARGET=$(TARGET) CPU=$(CPU) tools/build/build_library.sh

# Builds the program for another system in bin/TARGET: `make program TARGET=x86_64-pc-windows-gnu`.
program:
	tools/build/build_target.sh program $(TARGET)

# Proves the player for web pages, compiles it to WebAssembly, and writes it to lib/web/ with a page (index.html) that needs
# no server. If Node and Chromium are installed, the player is compared with the program, which is built if it is missing.
web:
	[ -x bin/ribjasper ] || tools/build/build.sh
	tools/build/build_web.sh
	tests/peers/compare_web.sh

# Builds examples/player.c, as C and as C++, compares its screens with those of the program, and measures its speed. The
# program and the library are built if they are missing.
example:
	[ -x bin/ribjasper ] || tools/build/build.sh
	[ -f lib/libribjasper.a ] || tools/build/build_library.sh
	tests/library/compare_player.sh measure

# Runs a tour of all commands on one disc. If bin/ribjasper is missing, one `rt try` compiles the program, without proving
# it, and runs all calls.
demo:
	examples/demo.py

# Runs the gate, and then the repository's own checks with the program and the library that the gate has proved. The gate
# refuses symbolic links, so the link of an earlier library is removed; take_gate.sh makes it again.
check:
	rm -f lib/libribjasper.so
	rt ci
	tools/build/take_gate.sh
	tools/check/check_repository.sh

# Measures the speed of each command, compared with the time for copying its bytes, and the slow commands of the desk.
bench:
	bench/throughput.py
	bench/desk.py

# Runs the commands of README.md, docs/FORMATS.md and docs/GUIDE.md unchanged.
guide:
	tools/check/run_guide.sh

# Writes all definitions that the clauses use, including those that docs/DEFINITIONS.md omits, and the list of wrong bodies.
definitions:
	tools/write/list_definitions.py --whole
	tools/write/list_wrong_bodies.py >docs/WRONG_BODIES.md

# Installs below PREFIX: the program, its manual page and the completions of two shells; the library if it is built; the
# desk if Python is installed.
install:
	[ -x bin/ribjasper ] || tools/build/build.sh
	tools/build/install.sh "$(DESTDIR)" "$(PREFIX)" "$(LIBDIR)" ribjasper
	[ ! -f lib/libribjasper.a ] || \
		tools/build/install.sh "$(DESTDIR)" "$(PREFIX)" "$(LIBDIR)" libribjasper0 libribjasper-dev
	! command -v python3 >/dev/null || tools/build/install.sh "$(DESTDIR)" "$(PREFIX)" "$(LIBDIR)" ribjasper-desk

# Removes the installed files, and the folders that become empty, except those of the system.
uninstall:
	tools/build/install.sh --remove "$(DESTDIR)" "$(PREFIX)" "$(LIBDIR)" ribjasper libribjasper0 libribjasper-dev ribjasper-desk

# Makes Debian packages from the results of `make` and `make library`.
deb:
	tools/build/make_deb.sh

# Makes a release in dist/: archives of the source and of the built files, and the packages.
dist:
	tools/build/make_dist.sh

clean:
	rm -rf bin lib deb dist crates/*/out
