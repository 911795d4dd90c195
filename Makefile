# Everything here needs the command `rt` of the Rattle toolchain, and nothing else but `machines`, `crashes`, `clients`, `programs`, `pages`
# and `documents`, which need Python; all but the second and the last need a C compiler too, and the first mosquitto. `limits` needs root.
# CONTRIBUTING.md says how long each takes.

PROGRAM := crates/shmdbg

.PHONY: replay try build quick pictures examples manners limits documents machines crashes clients programs bench refused test wrong-bodies

# Replays an example without proving anything: a minute or two on a fresh machine, most of it compiling.
replay:
	cd $(PROGRAM) && rt try -- replay < ../../examples/two-sites.shm

# Replays a script of your own without proving anything: make try SCRIPT=my.shm. It compiles anew each time, as `make replay` does.
try:
	@test -r "$(SCRIPT)" || { echo "make try SCRIPT=my.shm: which script?"; exit 2; }
	script=$$(realpath "$(SCRIPT)"); cd $(PROGRAM) && rt try -- replay < "$$script"

# Proves the program and the crates that it stands on, and leaves it in crates/shmdbg/out/. Says what is proved, crate by crate.
build:
	@gate/build

# Runs every test and every program without proving anything.
quick:
	@gate/quick

# Draws a script.
DRAW = $(PROGRAM)/out/shmdbg draw $$(! [ -f "$${script%.shm}.notes" ] || echo "--notes $${script%.shm}.notes") < "$$script"

# Draws each script of examples/ anew, with its notes where it has some. Needs the program that `make build` leaves.
pictures:
	@for script in examples/*.shm; do $(DRAW) > "$${script%.shm}.svg" || exit 1; done

# The scripts of examples/ and their outputs stand in a test as well, since a test reads no file outside its crate. Fails where the two
# differ, or where a picture isn't what the program that `make build` leaves draws.
examples:
	@for script in examples/*.shm; do \
		name=$$(basename "$$script" .shm); \
		copy=crates/shm_script_tests/src/tests/examples/$$(echo "$$name" | tr - _).rt; \
		sed -nE 's/^ *(pub\(super\) const [A-Z]+: &\[u8\] =)? *(b")?([^"]*)\\n(\\|";)$$/\3/p' "$$copy" > /tmp/copy.$$$$; \
		cat "$$script" "examples/$$name.out" | cmp - /tmp/copy.$$$$ || exit 1; rm /tmp/copy.$$$$; echo "$$name: equal"; \
	done
	@for script in examples/*.shm; do \
		picture=$${script%.shm}.svg; $(DRAW) | cmp -s - "$$picture" || { echo "$$picture: stale, or there is no program"; exit 1; }; \
	done; echo "pictures: as drawn"

# Writes the page of each script of examples/, step by step, and compares it with replays; with Chromium (Debian's package), opens each and
# leaves screenshots in /tmp/pages. Needs the program that `make build` leaves, and Python 3. No part of the gate.
.PHONY: pages
pages:
	@pages/check

# Looks whether each edit of must-fail/ and wrong-bodies/ still has its texts in its files. Needs Python 3; proves nothing.
.PHONY: edits
edits:
	@gate/edits

# Compares the shells' completions and the manual page with what the program's help names. Needs the program that `make build` leaves.
manners:
	@completions/check

# Checks the recipe "Another page size" of CONTRIBUTING.md: what it names is there, and a page's size stands nowhere else in code.
.PHONY: recipe-page-size
recipe-page-size:
	@recipes/page-size

# Runs a workload as a user that may have ever more threads, from too few to enough. Needs the program that `make build` leaves, setpriv of
# util-linux, and root.
limits:
	@limits/threads

# Checks the documents: links, commands with what they print, and the pages of examples/. Needs the program that `make build` leaves, and
# Python 3.
.PHONY: documents
documents:
	@docs/check

# Times a load, a store and a page that is fetched, in nanoseconds. Needs the crates that `make build` leaves built. No part of the gate.
bench:
	@bench/run

# Sites that are started wrongly, in each way, and journals that a full disk keeps from being made shorter; what strace makes fail is left out
# where it isn't there. Sites as processes, and a network between them that loses, repeats and reorders: some seconds of loads and stores, each
# load looked at.
# Then mutated lines; a backup that is restored; and sites over an MQTT broker on this machine's loopback, with callers, crashes and an audit,
# and with TLS. Needs the program that `make build` leaves, Python 3, a C compiler, openssl, and the Debian packages mosquitto and
# mosquitto-clients, which it names where they are missing.
machines:
	@examples/machines/starts.py $(PROGRAM)/out/shmdbg
	@examples/machines/shortenings.py $(PROGRAM)/out/shmdbg
	@for seed in 1 2 3; do examples/machines/router.py --seed $$seed --seconds 4 --program $(PROGRAM)/out/shmdbg || exit 1; done
	@examples/machines/mutations.py --lines 20000 --program $(PROGRAM)/out/shmdbg
	@examples/machines/mutations.py --lines 20000 --key --program $(PROGRAM)/out/shmdbg
	@examples/machines/backup.py $(PROGRAM)/out/shmdbg
	@examples/machines/broker.py --program $(PROGRAM)/out/shmdbg
	@examples/machines/tls.py $(PROGRAM)/out/shmdbg

# Sites that are killed and started again from their journals, for ten minutes: each byte's history is looked at, and the journals are audited.
# Needs the program that `make build` leaves, and Python 3.
crashes:
	@examples/machines/crashes.py --seconds 600 --program $(PROGRAM)/out/shmdbg

# A site that makes ten million steps, and makes its journal shorter as it goes: its memory and its journal stay as they are. A minute or two.
# Needs the program that `make build` leaves, and Python 3.
.PHONY: long-run
long-run:
	@examples/machines/long_run.py --program $(PROGRAM)/out/shmdbg

# The libraries of clients/: each call, over a stream that loses. Needs the program that `make build` leaves, Python 3 and a C compiler.
clients:
	@clients/try.py --program $(PROGRAM)/out/shmdbg

# Worlds and single sites as a static library for C, C++ and Rust: proves it, leaves clients/core/libleddwyfan.a, and runs the simulators of
# examples/c and examples/rust over it; every answer of a world is compared with a replay: make core SHMDBG=path, or the program that
# `make build` leaves. Needs a C and a C++ compiler, and rustc; valgrind is left out where it isn't there.
SHMDBG ?= $(PROGRAM)/out/shmdbg
.PHONY: core bench-core
core:
	@clients/core/build
	@clients/core/try $(SHMDBG)

# Times the library beside plain C. Needs what `make core` leaves. No part of the gate.
bench-core:
	@cc -std=c11 -D_POSIX_C_SOURCE=200809L -Wall -Wextra -Wpedantic -Werror -O2 -o /tmp/bench-core bench/core.c clients/core/libleddwyfan.a
	@/tmp/bench-core; rm /tmp/bench-core

# Programs of one machine's segments, unchanged, over two and three hosts on this machine, with carriers that lose, sites that are killed, and
# daemons that leave out a part of their rule. Needs the program that `make build` leaves, root, Linux 6.4 or later, Python 3 and a C compiler
# with its sanitizers; what needs the Debian packages libipc-shareable-perl, libipc-sharelite-perl, mosquitto, mosquitto-clients, perl, postgresql,
# python3-sysv-ipc, stress-ng, valgrind or xvfb is left out where they aren't there, and named. Some ten minutes; no part of the gate.
programs:
	@clients/host/try.py --program $(PROGRAM)/out/shmdbg

# Programs that the types alone must refuse, each with the words of its refusal. Within a minute; nothing is proved.
refused:
	@refused/try

# The gate: tries the programs that must not compile, proves every crate from nothing (newer toolchains: what this machine hasn't proved before), and runs every test, every program and every edit
# that must fail.
test: refused
	RT_JOBS=$${RT_JOBS:-$$(gate/lanes)} rt ci 2>&1

# Tries the wrong bodies of one crate, many in one check, in a clone of the last commit: `make tries CRATE=shm_number`. Needs Python 3.
.PHONY: tries
tries:
	@gate/tries $(CRATE)

# The wrong bodies that the gate leaves out for its time: the prover must refuse each of these, too. Tried in a clone of the last commit,
# four crates at a time.
wrong-bodies:
	set -e; work=$$(mktemp -d); trap 'rm -rf "$$work"' EXIT; git clone -q . "$$work"; cd "$$work"; \
	for further in crates/*/wrong-bodies; do rm -rf "$${further%wrong-bodies}must-fail"; mv "$$further" "$${further%wrong-bodies}must-fail"; done; \
	rt all check --jobs 4 > /dev/null; \
	for further in crates/*/must-fail; do basename "$${further%/must-fail}"; done | xargs -n 1 -P 4 rt must-fail
