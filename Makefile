.PHONY: help test check worked programs archive run clients soak bench
MINUTES ?= 10
SEED ?= $(shell date +%s)

help:
	@echo 'make test     the gate: layout, every proof, every must-fail edit, every program, the archive against the model, the daemon; ends in rt'\''s verdict'
	@echo 'make check    between landings: the same over what changed since BASE=REV (default: since the branch left origin/main), not from nothing'
	@echo 'make worked   prove the rule book and list the worked lines that hold'
	@echo 'make programs prove, build and run crates/trace/out/trace and crates/worked/out/worked, and hold what they print to document 01'
	@echo 'make archive  prove the library and write target/staticlib/libhaabuvilk.a; run, clients, soak and bench do it first where it is missing or old'
	@echo 'make run      start the daemon on run/socket, guest 1 on run/guest-1; Ctrl-C ends it'
	@echo 'make clients  drive xenstore'\''s own tools and pyxs against the daemon (installs both from Debian if missing)'
	@echo 'make soak     hold the archive to the model for MINUTES=10'
	@echo 'make bench    what a call costs, in one table'

test:
	@sh tests/gate.sh

check:
	@sh tests/check.sh $(BASE)

worked:
	@sh tests/prove.sh rules
	@sed -n 's/.*says = "\([^"]*\)".*/holds: \1/p' crates/rules/specs/Worked.antt

# The proved library, unless HAABUVILK_LIB names a folder that has it.
archive:
	@[ -n "$(HAABUVILK_LIB)" ] || sh host/archive.sh

run: archive
	@sh host/build.sh build/host/haabuvilkd
	@mkdir -p run
	@echo 'try: XENSTORED_PATH=run/socket xenstore-ls /'
	@exec build/host/haabuvilkd --socket run/socket --guest 1=run/guest-1 --log

clients: archive
	@sh tests/clients.sh

soak: archive
	@sh tests/cargo.sh run -q --release -p differential -- --minutes $(MINUTES) --seed $(SEED)

bench: archive
	@sh tests/cargo.sh run -q --release -p bench

programs:
	@sh tests/prove.sh trace worked
