.PHONY: help test wrong-bodies wrong-runs demo build build-runs install uninstall deb tarball reproduce completions
.PHONY: vectors clients faults bench load soak soak-all pages taken check try fmt hook

# What there is to make, for whoever types `make` alone.
help:
	@echo "make demo          what README's sessions show, told step by step, before or after a build"
	@echo "make test          the gate: every proof from nothing, and every test"
	@echo "make try           the daemon as the sources are now, with no proof, in two minutes"
	@echo "make check CRATE   proves a crate after an edit, and what the edit reaches"
	@echo "make build         proves and builds bin/macaroond"
	@echo "sudo make install  puts what was built under /usr/local, or another PREFIX="
	@echo "make deb tarball   the packages, of what was built"
	@echo "docs/CONTRIBUTING.md and the Makefile tell of all others."

# Every proof from nothing, the wrong bodies, every test and program; then the proved program beside its pages and the
# work of others, over sockets, with memory refused and calls failed. It installs nothing: what isn't there is told as
# skipped, and the last line counts it.
test:
	scripts/gate.py

# All wrong bodies, many in one check, of the crates that are named behind it, or of all.
wrong-bodies:
	scripts/wrong_bodies/wrong_bodies.py $(CRATES)

# Wrong bodies that no contract refuses, but a run that hangs or prints something else.
wrong-runs:
	scripts/wrong_bodies/wrong_runs.py

# A crate after an edit, and what stands on it as far as the edit reaches: make check mac_keys.
check:
	scripts/build/check.py $(CRATES)

CRATES = $(filter-out wrong-bodies check,$(MAKECMDGOALS))
$(notdir $(wildcard crates/*)):
	@:

# The daemon as the sources are now, with no proof, at ./socket with the keys of examples/, until it is interrupted;
# WORDS= are further words of `macaroond listen`.
try:
	@scripts/try.sh $(WORDS)

# Lays out the sources of all crates, and the programs in Go.
fmt:
	scripts/fmt.sh

# Has Git look at each commit first: the layout of its crates, the pages that are made, and what linters say.
hook:
	ln -sf "$$(realpath --relative-to="$$(git rev-parse --git-path hooks)" scripts/pre-commit.sh)" "$$(git rev-parse --git-path hooks)/pre-commit"

# What README's sessions show, in words: by the proved program where there is one, else by an unproved run.
demo:
	scripts/demo.sh

# Proves and builds macaroond, for x86-64-v2 and, where this machine runs it, for x86-64-v3, and leaves them in
# libexec/macaroond/; built/macaroond, which bin/macaroond calls, starts the one that fits. And bin/time_blocks. What `make install`,
# `make deb` and `make tarball` take is what this has left.
build:
	rm -f built/macaroond
	scripts/build/build.py
	$(MAKE) --silent built/macaroond

built/macaroond: packaging/launcher.c
	mkdir -p built
	$(CC) $(CPPFLAGS) $(CFLAGS) $(LDFLAGS) -o $@ $<

CFLAGS ?= -O2 -Wall

# DESTDIR is for a package's own tree; PREFIX says where the programs and their pages go, SYSCONFDIR where the settings
# do. An installed key file and changed settings are left alone, by both.
PREFIX = /usr/local
SYSCONFDIR = /etc
export DESTDIR PREFIX SYSCONFDIR UNITDIR ZSHDIR
install uninstall:
	@packaging/install.sh $@

# The Debian packages, of the daemon, of both clients and of macaroond-fleet, and the .tar.gz, in dist/. The first asks for
# debhelper; neither for root or the toolchain.
deb tarball:
	scripts/build/packaging.py $@

# Builds the programs, the packages and the .tar.gz of this commit twice, in two folders, and compares their bytes.
reproduce:
	scripts/build/reproduce.py

# The completions for bash and zsh, from what --help says. After make build.
completions:
	scripts/build/completions.py

# What stands in pages and is made of other files: the counts, laws and wrong bodies in the pages of promises, from
# the tree; what crates cost, from docs/proof-times.txt; docs/architecture.svg, from docs/architecture.dot, where
# Graphviz is there or the text is as it was.
pages:
	scripts/check/promises.py
	scripts/check/costs.py
	scripts/check/draw.py

# The vectors, from what try_cases answers to their rows, and the scoreboard, from what each library does with them.
# After make build-runs, and with what scripts/install_peers.sh installs.
vectors:
	scripts/vectors/make.py
	scripts/vectors/board.py

# The same for the programs that try the libraries; scripts/programs.txt says what each is for.
TRIALS = $(shell awk '$$1 == "build-runs" { print $$2 }' scripts/programs.txt)
build-runs:
	scripts/build/build.py --runs

# The programs that `rt ci` left where it built them, as make build and make build-runs would leave them.
taken:
	scripts/build/build.py --taken
	rm -f built/macaroond
	$(MAKE) --silent built/macaroond
	for program in time_blocks $(TRIALS); do cp crates/$$program/out/$$program bin/ || exit 1; done

# Each request for memory refused in turn, and each call of a device failed, of the programs and the daemon; then
# connections that are moved, for a minute. After make build build-runs, and with a C compiler.
faults:
	scripts/faults/faults.py
	scripts/faults/moving.py 30

# Requests a second, beside what their hashing costs; what serve, the ring and the pool cost. After make build build-runs.
bench:
	scripts/measure/bench.py

# The daemon under load: requests a second, waits, processor time, memory. After make build.
load:
	scripts/measure/load.py -- --remember 0
	scripts/measure/load.py --window 1 -- --remember 0

# The clients for Python and Go: their tests, 100,000 requests of each beside the daemon and the macaroons of others, and
# how fast they are. After make build.
clients:
	scripts/check/clients.py
	scripts/measure/client_speed.py

# Four workers, 64 desks of two threads, pauses by chance, on two processors: 19,200 posts, then 1,000,320 of them.
# A wait that nobody ends shows as a run that doesn't end. Then hostile clients of the daemon, beside one that
# compares every reply, and clients that never read; crowds of 10,000 clients that hold what they may, which take
# 20,100 descriptors; and tokens taken back under 100,000 requests. After make build build-runs.
MINUTES = 1
soak:
	scripts/faults/soak.sh
	scripts/faults/hostile.py $(MINUTES)
	scripts/faults/bounded.py 10000
	scripts/check/revoking.py

# nginx, HAProxy, three daemons, both faces and both clients together: keys change each ten seconds, a daemon is
# replaced each minute, and nothing may be wrong, lost or grow. After make build.
soak-all: MINUTES = 30
soak-all:
	scripts/faults/soak_all.py $(MINUTES)
