# Shortcuts. The gate is .ci/run; rt proves and builds the library, cargo and gcc what stands around it.

LIBRARY := target/staticlib/liblfat.a
LFAT := target/host/release/lfat
DISK := target/host/release/liblfat_disk.a
LOADER := target/loader
SAVE := target/save
CARD := target/run/card.img
PROVED := crates.txt $(shell find crates -name out -prune -o '(' -name '*.rt' -o -name '*.antt' ')' -print)

export PATH := $(PATH):$(HOME)/.cargo/bin

.PHONY: help lfat disk run loader save cases test install clean

# Where make install puts things; DESTDIR comes before it.
PREFIX := /usr/local

# How many times the usual number of random cases.
N := 10

help:
	@echo 'make run     make a card, save a path, pull the plug at every store, recover, print the table'
	@echo 'make lfat    build the command line, $(LFAT)'
	@echo 'make loader  build examples/loader.c, $(LOADER)'
	@echo 'make disk    build the disk layer for C, $(DISK)'
	@echo 'make save    build examples/save.c with it, $(SAVE)'
	@echo 'make cases   the random tests of the library, N times as many: make cases N=10'
	@echo 'make test    the gate, .ci/run: proves what is not proved on this machine yet'
	@echo 'make install command line, headers and libraries to PREFIX ($(PREFIX)): make install PREFIX=/opt/lfat'
	@echo 'make clean   remove what cargo, gcc and make run have made; proofs and library stay'

# rt proves only what has changed; from nothing it takes a while. A line for each crate.
$(LIBRARY): $(PROVED)
	@.ci/build
	@touch $@

lfat: $(LIBRARY)
	cargo build --release --offline --manifest-path host/Cargo.toml --package lfat --target-dir target/host

disk: $(LIBRARY)
	cargo build --release --offline --manifest-path host/Cargo.toml --package lfat-disk --target-dir target/host

run: lfat
	rm -rf $(dir $(CARD))
	mkdir -p $(dir $(CARD))
	$(LFAT) format $(CARD)
	$(LFAT) put $(CARD) ROUTE.CUT examples/route.cut
	$(LFAT) put $(CARD) 'Hull 7 sheer panel.cut' examples/route.cut
	$(LFAT) ls -l $(CARD)
	$(LFAT) rack $(CARD) put PANEL.CUT examples/route.cut --svg $(dir $(CARD))cuts.svg
	@echo 'The cuts as a picture: $(dir $(CARD))cuts.svg'

loader: $(LIBRARY)
	gcc -std=c99 -Wall -Wextra -Wpedantic -Werror -O2 -I include examples/loader.c $(LIBRARY) -o $(LOADER)

save: disk
	gcc -std=c99 -Wall -Wextra -Wpedantic -Werror -O2 -I include examples/save.c $(DISK) -o $(SAVE)

cases: $(LIBRARY)
	LFAT_CASES=$(N) cargo test --release --offline --manifest-path host/Cargo.toml --package lfat-card --test library --target-dir target/host

test:
	.ci/run

install: lfat disk
	install -D -m 755 $(LFAT) $(DESTDIR)$(PREFIX)/bin/lfat
	install -D -m 644 include/lfat.h $(DESTDIR)$(PREFIX)/include/lfat.h
	install -D -m 644 include/lfat_disk.h $(DESTDIR)$(PREFIX)/include/lfat_disk.h
	install -D -m 644 $(LIBRARY) $(DESTDIR)$(PREFIX)/lib/liblfat.a
	install -D -m 644 $(DISK) $(DESTDIR)$(PREFIX)/lib/liblfat_disk.a

clean:
	rm -rf target/host target/run $(LOADER) $(SAVE)
