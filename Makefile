# `make try` shows a room, `make test` proves and tests everything, `make build` makes the proved program.
# Only `make test` is a verdict.
RT ?= rt
# (what runs the program takes the one that FILEROOM names, and proves none then)
BUILT := $(if $(FILEROOM),,build)

.PHONY: try demo quick build test wrong growth failing full wire tables upgrade crash hostile front soak client page
.PHONY: decisions power wrong-around wrong-definitions
.PHONY: bench dist deb image install uninstall service firstday standby machine office directory

# Serves a room with sample folders, the front and the page, until Ctrl-C: with build/fileroom where `make build` made
# it, and else with the quick build, which proves nothing. It goes again; with FOLDER=.. it is kept there.
try:
	@RT='$(RT)' examples/try $(if $(FOLDER),'$(FOLDER)')

# Answers the questions of examples/, and walks through a served room with curl: with build/fileroom where `make build`
# made it, and else with the quick build, which proves nothing.
demo:
	@RT='$(RT)' examples/demo
	@if [ -x build/fileroom ]; then \
		echo "demo: a walk with build/fileroom, proved and optimised"; examples/walk; \
	else \
		echo "demo: a walk with the quick build, which proves nothing"; \
		RT='$(RT)' FILEROOM=examples/quick examples/walk; \
	fi

# Leaves the quick build at build/quick/fileroom: compiled with checks in place of the proofs, in some minutes.
# It proves nothing. It is made anew once a source has changed; examples/quick runs it.
quick:
	@RT='$(RT)' tools/quickbuild

# Leaves the program, proved and optimised, at build/fileroom, and shows how far it is. Where `make test` has proved
# these very crates in this checkout, it takes that program.
build:
	@RT='$(RT)' tools/build

# Proves and tests everything from nothing, tries wrong bodies in rounds and plays scripts over the proved program. It
# ends with a table of parts and times. Nothing else is a verdict.
test:
	@RT='$(RT)' tests/gate

# Tries the wrong bodies of tests/wrong in every round, of every crate or of CRATE: the prover must refuse each.
wrong:
	@RT='$(RT)' tests/wrong/rounds $(CRATE)

# Tries the wrong edits of what no prover looks at, of every part or of PART: the tests that they name must refuse each.
# `make test` tries twenty.
wrong-around: $(BUILT)
	tests/wrong/around/run $(PART)

# Tries the wrong definitions of tests/wrong/definitions, of every crate or of CRATE: the laws must refuse each. `make
# test` tries the first of room_commands.
wrong-definitions:
	@RT='$(RT)' tests/wrong/definitions/run $(CRATE)

# Refuses each growth of memory in turn, over questions, a room, runs and all examples. `make test` tries a sample of
# those of the examples. Needs the player of examples, as `rt run` in crates/test_examples leaves it.
growth: $(BUILT)
	RT='$(RT)' EVERY=1 pytest-3 tests/program/test_growth.py tests/program/test_growth_in_examples.py

# Fails reads and writes in turn, over every example. `make test` tries a sample in long streams.
failing: $(BUILT)
	RT='$(RT)' EVERY=1 pytest-3 tests/program/test_failing.py

# Serves rooms whose files cannot grow, as on a full disk.
full: $(BUILT)
	pytest-3 tests/program/test_full.py

# Sends a served room odd, malformed and cut messages, and the program odd words, rosters and streams.
wire: $(BUILT)
	pytest-3 tests/program/test_wire.py

# Reads a served room with the sqlite3 program, and serves a room that it made. Needs sqlite3.
tables: $(BUILT)
	pytest-3 $(patsubst %,tests/program/test_%.py,tables nearly_rooms odd_rows)

# Has a room of version 1 taken over, and kills the program while it does, or leaves it no room. Needs sqlite3.
upgrade: $(BUILT)
	pytest-3 tests/program/test_upgrade.py

# Kills the server in the middle of writes, 240 times (`make test` 100 times): each request acts once.
crash: $(BUILT)
	pytest-3 tests/program/test_crash.py

# A million random questions about lists, to the program and to Samba's own check of access (`make test` asks 100,000).
# Needs python3-samba.
decisions: $(BUILT)
	QUESTIONS=1000000 pytest-3 tests/program/test_decisions.py

# Loses the machine's power after each system call of a served room, of `init` and of the upgrade: 4,000 states of each
# (`make test` tries 150). Needs strace.
power: $(BUILT)
	STATES=4000 pytest-3 tests/program/test_power.py

# Random streams against a plain model, and peers that neither send nor read. `make test` plays 2,000 streams; here
# 50,000.
hostile: $(BUILT)
	STREAMS=50000 pytest-3 tests/program/test_hostile.py

# The client of client/ against a served room: commands, refusals, lost answers, and stops at each step.
client: $(BUILT)
	pytest-3 tests/around/client

# Forty clients with a password each through nginx with the files of front/, and kills. Needs nginx and openssl.
front: $(BUILT)
	pytest-3 tests/around/front

# A room on three machines, of which some die: namespaces, GlusterFS, and the settings of service/standby. By hand, and
# not part of `make test`. Needs root, glusterfs-server, btrfs-progs and nftables; for RUNNING's lines, and
# takeovers by Pacemaker, pacemaker, pcs, nginx-light and openssh-server; for people at a desk nginx and chromium.
# TAKEOVERS=100 plays so many.
standby: $(BUILT)
	lab/standby/run

# A Debian 12, and then a 13, with systemd itself, booted by systemd-nspawn: what `make dist` makes is installed there,
# the first day done, and then attacked. By hand, and not part of `make test`. Needs root, systemd-container and
# debootstrap.
machine: $(BUILT)
	lab/machine/run

# The sign-in service before a real Active Directory, which Samba serves in a network of its own. By hand, and not part
# of `make test`. Needs root, samba, samba-ad-provision, samba-dsdb-modules, samba-vfs-modules and winbind.
directory:
	lab/signin/run

# An office of fifty for ten days, or a smaller one by the environment, as the head of the script has it. By hand, and
# not part of `make test`: it takes hours. Needs nginx, openssl, nodejs, fail2ban, chromium, chromium-driver, and what
# WebDAV takes.
office: $(BUILT)
	lab/office/run

# A million requests to one served room: its memory stays, and so does the time of a request. `make test` sends 40,000.
soak: $(BUILT)
	REQUESTS=1000000 SLOWER=1.5 pytest-3 tests/program/test_soak.py

# Does the README's first screen, with the quick build too, and the first day of docs/RUNNING.md by their own lines, and
# times them; then tries `make try` and `make dist`. Needs nginx, openssl, sqlite3 and curl, and for the first day root.
firstday: $(BUILT)
	RT='$(RT)' pytest-3 tests/around/firstday

# Tries the page's modules in node, and the page in a browser. Needs nodejs, nginx-light, chromium and chromium-driver,
# and says so where they are not installed.
page: $(BUILT)
	pytest-3 tests/around/page

# Times and counts the program's works; the program beside a server in C over libsqlite3; the instructions of both, and
# as a room grows; and draws the pictures of docs/FIGURES.md. Needs sqlite3, strace, valgrind, gcc, libsqlite3-dev,
# nginx and gnuplot.
bench: $(BUILT)
	bench/pictures
	bench/run
	bench/side
	bench/instructions
	bench/instructions setlist
	bench/growth

# Leaves build/fileroom-VERSION-COMMIT.tar.gz: the program that `make build` proved of this commit, with client, page,
# front, units, man pages and docs. It runs on Debian 12 and 13 without the toolchain.
dist: $(BUILT)
	RT='$(RT)' tools/dist

# The same as a package of Debian 12 and 13: build/fileroom_VERSION_amd64.deb, which brings what it needs.
deb: $(BUILT)
	RT='$(RT)' tools/deb

# The same as a container's image, localhost/fileroom, in podman's store, which lab/machine/image tries. Needs root,
# debootstrap and podman.
image: $(BUILT)
	RT='$(RT)' tools/image

# Puts the proved program that `make build` made below PREFIX, with its man pages, the client, the page, units, the
# backup script, and samples of roster and front: docs/RUNNING.md goes on from there. DESTDIR stands before each path,
# for who makes a package.
PREFIX ?= /usr/local
install:
	@service/install '$(DESTDIR)' '$(PREFIX)'

# Takes away what `make install` puts there, and nothing else: rooms, rosters and backups stay.
uninstall:
	@service/install --remove '$(DESTDIR)' '$(PREFIX)'

# Installs below a folder of its own, looks at the units, kills a served room, and brings it back from a backup; kills
# `fileroom-admin` at each of its steps (`make test` at one in four).
service: $(BUILT)
	EVERY=1 pytest-3 tests/around/service
