# make install PREFIX=/usr/local: the built programs (bin/build), the scripts that call them, their man pages and completions, under
# DESTDIR where it is given. make uninstall takes the same files away.
PREFIX ?= /usr/local
INSTALL ?= install
PROGRAMS = aigmc aigcheck
SCRIPTS = aigmc-hwmcc check-all from-verilog properties
MODULES = calls.py circuits.py

bin = $(DESTDIR)$(PREFIX)/bin
share = $(DESTDIR)$(PREFIX)/share/lugyveron
man = $(DESTDIR)$(PREFIX)/share/man/man1
bash = $(DESTDIR)$(PREFIX)/share/bash-completion/completions
zsh = $(DESTDIR)$(PREFIX)/share/zsh/site-functions

.PHONY: install uninstall

install:
	@for program in $(PROGRAMS); do \
		[ -x "crates/$$program/out/$$program" ] || { echo "make install: bin/build has not built $$program yet" >&2; exit 1; }; \
	done
	$(INSTALL) -d "$(bin)" "$(share)" "$(man)" "$(bash)" "$(zsh)"
	set -e; for program in $(PROGRAMS); do \
		$(INSTALL) -m 755 "crates/$$program/out/$$program" "$(bin)/$$program"; \
		$(INSTALL) -m 644 "completions/$$program.bash" "$(bash)/$$program"; \
		$(INSTALL) -m 644 "completions/_$$program" "$(zsh)/_$$program"; \
	done
	set -e; for script in $(SCRIPTS); do $(INSTALL) -m 755 "bin/$$script" "$(bin)/$$script"; done
	set -e; for module in $(MODULES); do $(INSTALL) -m 644 "share/lugyveron/$$module" "$(share)/$$module"; done
	set -e; for name in $(PROGRAMS) $(SCRIPTS); do $(INSTALL) -m 644 "man/$$name.1" "$(man)/$$name.1"; done

uninstall:
	for name in $(PROGRAMS) $(SCRIPTS); do rm -f "$(bin)/$$name" "$(man)/$$name.1"; done
	for program in $(PROGRAMS); do rm -f "$(bash)/$$program" "$(zsh)/_$$program"; done
	for module in $(MODULES); do rm -f "$(share)/$$module"; done
	[ ! -d "$(share)" ] || rmdir --ignore-fail-on-non-empty "$(share)"
