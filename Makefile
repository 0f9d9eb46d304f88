# Builds, checks and measures Tineflax with the Rattle toolchain's command `rt`, which has to be on the path.
.PHONY: help demo check build install uninstall examples test bench bench_serve soak performance statement definitions pictures clean

# Where `make install` puts the program: PREFIX/bin/gn.
PREFIX ?= /usr/local
# the proved program
GN = crates/gn/out/gn

help:
	@echo 'make demo      replays the first example in a minute or so; it proves nothing'
	@echo 'make check     tries the tests, the examples, the scripts and the documents, in minutes; it proves nothing'
	@echo 'make build     proves gn and all below it, and leaves the program at crates/gn/out/gn'
	@echo 'make install   the same, and installs gn with its manual page and completions below PREFIX (PREFIX=$(PREFIX))'
	@echo 'make uninstall removes what make install put there'
	@echo 'make examples  replays and audits all examples with the proved program, and compares what it prints'
	@echo 'make test      the merge gate: every proof from nothing, the must-fail edits, the tests, the programs'
	@echo 'make bench     proves and runs the benchmarks, those of the program gn among them'
	@echo 'make bench_serve  what the proved program does over sockets, beside a relay in C; wants a C compiler'
	@echo 'make soak      leaves a mesh of the proved program under load for an hour, and asks whether all stays right; wants a C compiler'
	@echo 'make performance  measures, and writes the tables of docs/PERFORMANCE.md anew'
	@echo 'make statement  writes docs/STATEMENT.md and docs/LAWS.md; with FOR=replay it prints what that function states, FOR=laws the laws of paths'
	@echo 'make definitions  prints each definition that contracts cite, beside its words'
	@echo 'make pictures  draws docs/pictures from examples/, with the proved program; wants Graphviz and gnuplot'
	@echo 'make clean     removes all that was built'

# Replays the first example. Standard output is its four lines, and nothing else.
demo:
	@echo 'demo: nothing is proved here, the program is only compiled and run; make build proves it' >&2
	@cd crates/gn && rt try -- replay < ../../examples/first_ping.capture

# Tries the tests, the examples, the scripts and the documents. The last line is
# 'N passed, M failed, K skipped'.
check:
	@scripts/check

# Proves `gn` and all below it, independent crates side by side, and leaves the program at crates/gn/out/gn.
build:
	@scripts/build gn
	@scripts/stamp crates/gn/out/gn | head -n 1 >&2

# Installs the program, its manual page and completions, which are made of what it says at --help, and BUILD: the version, the commit
# and the toolchain of which it was built, and its sum.
SHARE = $(DESTDIR)$(PREFIX)/share
install: build
	install -d '$(DESTDIR)$(PREFIX)/bin' '$(SHARE)/man/man1' '$(SHARE)/bash-completion/completions' '$(SHARE)/zsh/site-functions' \
		'$(SHARE)/fish/vendor_completions.d' '$(SHARE)/doc/gn'
	install -m 755 $(GN) '$(DESTDIR)$(PREFIX)/bin/gn'
	scripts/manual $(GN) man > '$(SHARE)/man/man1/gn.1'
	scripts/manual $(GN) bash > '$(SHARE)/bash-completion/completions/gn'
	scripts/manual $(GN) zsh > '$(SHARE)/zsh/site-functions/_gn'
	scripts/manual $(GN) fish > '$(SHARE)/fish/vendor_completions.d/gn.fish'
	scripts/stamp $(GN) | sed 's,  $(GN)$$,  $(PREFIX)/bin/gn,' > '$(SHARE)/doc/gn/BUILD'

uninstall:
	rm -f '$(DESTDIR)$(PREFIX)/bin/gn' '$(SHARE)/man/man1/gn.1' '$(SHARE)/bash-completion/completions/gn' \
		'$(SHARE)/zsh/site-functions/_gn' '$(SHARE)/fish/vendor_completions.d/gn.fish' '$(SHARE)/doc/gn/BUILD'

# What the proved program prints of each example is the text beside it.
examples: build
	@scripts/examples.sh crates/gn/out/gn

# How many proofs go on side by side: one a processor, as many as memory holds at 6 GB each. A proof that several processors share takes
# more of their time in all.
PROOFS ?= $(shell awk -v processors=$$(nproc) '/^MemTotal/ { fit = int($$2 / 6000000); print fit < 1 ? 1 : fit < processors ? fit : processors }' /proc/meminfo)

# The merge gate: every proof from nothing, the must-fail edits, the tests, the programs.
test:
	RT_JOBS=$(PROOFS) rt ci

# What a call of each table takes; then, three times in a process of its own, what a job through the stage queue takes: these go to
# standard error. Then tables of what the program gn takes: replays and audits of mixed captures, and loads of 1, 2, 4 and 16 workers
# beside replays; and that a replay and an audit of a million steps take no more memory beyond their input than of ten thousand, nor a serve.
bench: build
	scripts/build gn_bench
	crates/gn_bench/out/gn_bench tables
	for run in 1 2 3; do crates/gn_bench/out/gn_bench stage || exit 1; done
	scripts/bench_replay crates/gn/out/gn
	scripts/bench_load crates/gn/out/gn
	scripts/check_memory crates/gn/out/gn

# How many packets a second the program gn passes on through sockets, and how soon it answers, beside a relay of one thread.
bench_serve: build
	scripts/bench_serve crates/gn/out/gn

# A mesh of ten routers under load for an hour, some killed and started again. The last line is 'N passed, M failed'.
soak: build
	scripts/soak --gn crates/gn/out/gn

# The tables of docs/PERFORMANCE.md, of this machine.
performance: build
	scripts/build gn_bench
	scripts/performance $(GN) crates/gn_bench/out/gn_bench

# What `run` states, in the words of its definitions, and the laws of paths; with FOR=replay what that function states, with their
# formulas, with FOR=laws the laws of paths.
statement:
ifdef FOR
	@scripts/statement $(FOR)
else
	scripts/statement > docs/STATEMENT.md.new
	mv docs/STATEMENT.md.new docs/STATEMENT.md
	scripts/statement laws > docs/LAWS.md.new
	mv docs/LAWS.md.new docs/LAWS.md
endif

# Each definition that contracts cite, beside the words that stand above it.
definitions:
	@scripts/definitions

# The pictures of README: who sent what to whom in a small replay, and a load over its steps.
pictures: build
	@mkdir -p docs/pictures
	crates/gn/out/gn replay --history < examples/query_hit_push.capture | scripts/picture --connections > docs/pictures/query_hit_push.svg
	crates/gn/out/gn load --workers 4 < examples/six_links.capture | scripts/picture --time > docs/pictures/six_links.svg

clean:
	rm -rf crates/*/out
