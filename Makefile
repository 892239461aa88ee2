.PHONY: help run programs claim try library install test bench clean

# A variable as one word of the shell, whatever characters it has; it is not exported, so that nothing in it is expanded.
one_word = '$(subst ','\'',$(value $(1)))'
PREFIX ?= /usr/local
unexport FILE ANSWER NET WORDS PREFIX DESTDIR

# Plain `make` is `make help`: it shows the lines below that begin with ##.
help:
	@sed -n 's/^## //p' Makefile

## make run                        the worked example N4: proved of the definitions, answered by the program
## make run FILE=net.txt           the program's answer to a file, and what is wrong if it is refused
run:
	@scripts/run $(if $(value FILE),$(call one_word,FILE))

## make programs                   proves and links the programs, for bin/route and bin/bad_line
programs:
	@scripts/proved programs
	@echo "target/bin: route, bad_line"

## make claim FILE=net.txt         the program's answer, or ANSWER=card.txt, as claims that are checked
claim:
	@$(if $(value FILE),,echo "make claim needs a file: make claim FILE=nets/n4.gr" >&2; exit 2)
	@scripts/claim $(call one_word,FILE)$(if $(value ANSWER), $(call one_word,ANSWER))

## make try NET=net.gr             every call of the library beside independent programs, on a net of yours; WORDS='--order FILE ..'
try:
	@$(if $(value NET),,echo "make try needs a net: make try NET=nets/bologna.gr" >&2; exit 2)
	@harness/try $(call one_word,NET)$(if $(value WORDS), $(value WORDS))

## make library                    target/libtablet.a and target/griezmuld.h, ready to link
library:
	@scripts/proved library
	@cp target/staticlib/libtablet.a include/griezmuld.h target/
	@echo "target: libtablet.a, griezmuld.h"

## make install PREFIX=/usr/local  archive, header and a pkg-config file, for C programmers
install: library
	@DESTDIR=$(call one_word,DESTDIR) scripts/install $(call one_word,PREFIX)

## make test                       the gate: all proved, all edits refused, all runs compared
test:
	@.ci/run

## make bench                      the tables of docs/BENCHMARKS.md and the picture docs/growth.svg
bench:
	@[ "$$(uname -m)" = x86_64 ] || { echo "make bench measures x86-64 code, which this machine can only emulate" >&2; exit 2; }
	@scripts/tools rt cargo cc valgrind
	@scripts/proved library
	@cd harness && cargo run --quiet --release -j1 --bin bench -- --write ../docs/BENCHMARKS.md

## make clean                      removes what was proved and built: target, crates/*/out, harness/target, examples/rust/target
clean:
	@rm -rf target crates/*/out harness/target examples/rust/target
	@echo "removed: target, crates/*/out, harness/target, examples/rust/target"
