# Butcherford: a Universal Flash Storage device in software, proved before it is built.

PREFIX ?= /usr/local

BIN = $(DESTDIR)$(PREFIX)/bin
SHARE = $(DESTDIR)$(PREFIX)/share
MAN = $(SHARE)/man/man1
BASH = $(SHARE)/bash-completion/completions
ZSH = $(SHARE)/zsh/site-functions
FISH = $(SHARE)/fish/vendor_completions.d
LIB = $(DESTDIR)$(PREFIX)/lib
PACKAGES = $(LIB)/python3/dist-packages
CRATE = $(SHARE)/butcherford-rust
INCLUDE = $(DESTDIR)$(PREFIX)/include
# Of each program: itself, its manual page, and its completions for three shells.
PROGRAMS := ufsim ufstool
INSTALLED = $(foreach it,$(PROGRAMS),bin/$(it) share/man/man1/$(it).1 share/bash-completion/completions/$(it) \
	share/zsh/site-functions/_$(it) share/fish/vendor_completions.d/$(it).fish) \
	include/ufs.h include/ufs_dies.h lib/libufs.a lib/pkgconfig/ufs.pc

.PHONY: help demo test prove format install uninstall bench collection peers stress fuzz wrong-bodies check-sees turned-rules \
	refused-memory power-cycles c-example clients linux price-of-c discard

help:
	@echo 'make demo                  shows a write, a read and six stops; builds without proving: about two minutes'
	@echo 'make test                  runs every test, example and stored case; proves nothing; about 5 minutes'
	@echo 'make prove                 proves everything, tries every wrong body, and runs what was proved: an hour'
	@echo '                           or more from nothing; what has not changed is kept, so later runs take minutes'
	@echo 'make format                lays out the code and the proofs of every crate as make prove wants them'
	@echo 'make install PREFIX=DIR    proves and builds ufsim and ufstool, and copies them to DIR/bin, with'
	@echo '                           their manual pages and completions to DIR/share; the library for C to DIR/lib, and'
	@echo '                           its header to DIR/include; the Python package to DIR/lib/python3/dist-packages;'
	@echo '                           the Rust crate to DIR/share/butcherford-rust'
	@echo 'make uninstall PREFIX=DIR  removes what was installed (both: without PREFIX, DIR is $(PREFIX))'
	@echo 'make c-example             proves and builds the library for C, and runs its examples, also under valgrind'
	@echo 'make clients               proves and builds the library for C, tests the Python package over it, the Rust'
	@echo '                           crate where cargo is there, and runs iscsi-test-cu, fio and ext4 on the device;'
	@echo '                           installs what is missing of pytest and of these with apt-get, as root'
	@echo 'make linux                 proves and builds the library for C, and runs the UFS driver of Linux over it, with'
	@echo '                           twenty power cuts; builds user-mode Linux once, which takes ten minutes, and'
	@echo '                           installs what that needs with apt-get, as root, where it is missing'
	@echo 'make bench                 times writes and reads, also among threads, and each call by itself on a small'
	@echo '                           and on a large device, after it proves what they need'
	@echo 'make price-of-c            times a durable write through the library for C beside the same in Rattle, after'
	@echo '                           it proves what both need'
	@echo 'make collection            counts the pages that a device programs for each that is written, once it'
	@echo '                           collects, and the same of a simulation'
	@echo 'make discard               counts what the dies do when a whole unit is discarded, and for each write behind'
	@echo '                           it, after it proves and builds the library for C'
	@echo 'make peers                 times durable writes and reads of SQLite, LMDB and RocksDB beside one SHA-256;'
	@echo '                           installs them with apt-get, as root, where they are missing'
	@echo 'make stress                runs what was built a thousand times with 1 to 8 dies and hosts in threads'
	@echo 'make fuzz                  plays 2,000 random scripts, and compares what comes with a plain model; builds'
	@echo '                           without proving'
	@echo 'make wrong-bodies          tries the wrong bodies that changed, and sees that the prover refuses each'
	@echo 'make check-sees            sees that ufsim check tells of some wrong bodies; builds without proving'
	@echo 'make turned-rules          turns rules of the specification around, and sees that a law refuses each'
	@echo 'make refused-memory        refuses each allocation of each call that takes memory, and those of ufsim run'
	@echo '                           and ufsim check, each in a run of its own; builds without proving: ten minutes'
	@echo 'make power-cycles          proves and plays rows of 10,000 lives, each of which ends with a stop: hours'

# Without the kit nothing can be proved or built. Under -q make runs nothing, adds no line of its own,
# and ends with status 1.
ifneq ($(filter demo test prove format install bench collection fuzz wrong-bodies check-sees turned-rules refused-memory power-cycles c-example clients linux price-of-c discard,$(MAKECMDGOALS)),)
ifeq ($(shell command -v rt 2>/dev/null),)
$(shell echo "butcherford: the Rattle kit's command rt is not on the PATH; it is needed to prove and build" >&2)
MAKEFLAGS += -q
endif
endif

demo:
	@python3 tools/demo.py examples/write_read.txt examples/stop_in_write.txt

test:
	@python3 tools/test.py

prove:
	@python3 tools/prove.py

# Without it `rt ci` counts a crate as not proved, and each crate above it: it takes a minute, the proofs an hour.
format:
	@for it in crates/*/; do (cd "$$it" && rt fmt) || exit 1; done
	@python3 tools/wrong_bodies.py --texts
	@python3 tools/turn_rules.py --texts

# The folder comes first, so that nobody waits for the proofs in vain.
install:
	@mkdir -p '$(BIN)' 2>/dev/null && test -w '$(BIN)' || { \
		echo 'butcherford: $(BIN) cannot be written; name another folder, as in make install PREFIX=$(HOME)/.local' >&2; \
		exit 1; }
	@python3 tools/build_programs.py
	@python3 tools/libufs.py build
	@mkdir -p '$(MAN)' '$(BASH)' '$(ZSH)' '$(FISH)' '$(INCLUDE)' '$(LIB)/pkgconfig'
	@for it in $(PROGRAMS); do \
		cp "crates/$${it}_main/out/$${it}_main" "$(BIN)/$$it" && \
		cp "man/$$it.1" '$(MAN)/' && \
		cp "completions/$$it.bash" "$(BASH)/$$it" && \
		cp "completions/_$$it" '$(ZSH)/' && \
		cp "completions/$$it.fish" '$(FISH)/' && \
		echo "installed $(BIN)/$$it" || exit 1; \
	done
	@cp include/ufs.h include/ufs_dies.h '$(INCLUDE)/' && \
		cp crates/libufs/out/libufs.a '$(LIB)/' && \
		sed 's|@PREFIX@|$(PREFIX)|' include/ufs.pc.in > '$(LIB)/pkgconfig/ufs.pc' && \
		echo 'installed $(LIB)/libufs.a'
	@python3 tools/clients.py install '$(PACKAGES)'
	@python3 tools/rust_client.py install '$(CRATE)'

uninstall:
	@for it in $(INSTALLED); do \
		file='$(DESTDIR)$(PREFIX)'/"$$it"; \
		if test -f "$$file"; then \
			rm "$$file" && echo "removed $$file"; \
		else \
			echo "nothing to remove: there is no $$file"; \
		fi; \
	done
	@python3 tools/clients.py uninstall '$(PACKAGES)'
	@python3 tools/rust_client.py uninstall '$(CRATE)'

c-example:
	@python3 tools/libufs.py examples

clients:
	@python3 -B tools/clients.py test

linux:
	@python3 -B tools/linux.py

bench:
	@cd crates/bench && rt run
	@cd crates/bench && rt run -- lanes
	@cd crates/bench && rt run -- sizes

price-of-c:
	@python3 tools/price_of_c.py

collection:
	@cd crates/bench && rt run -- collection
	@python3 tools/collector_simulation.py
	@python3 tools/collector_simulation.py --blocks 256 --pages 16 --fill 95 100
	@python3 tools/collector_simulation.py --blocks 256 --pages 16 --slots 288 --fill 100

discard:
	@python3 -B tools/discard.py

peers:
	@python3 tools/peers.py

stress:
	@python3 tools/stress.py

fuzz:
	@python3 -B tools/fuzz.py --bits --scripts 2000 --long 20 --over 20

wrong-bodies:
	@python3 tools/wrong_bodies.py

check-sees:
	@python3 tools/check_sees.py

turned-rules:
	@python3 tools/turn_rules.py

refused-memory:
	@python3 tools/refuse_memory.py
	@python3 tools/refuse_in_ufsim.py

power-cycles:
	@cd crates/power_cycles && rt run -- all
