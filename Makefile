# Installs the library for C and the program bookkeeper: make install PREFIX=/usr/local; a package sets DESTDIR as well.
# install-library and install-bookkeeper install the one or the other.
PREFIX ?= /usr/local
DESTDIR ?=
INSTALL ?= install
CARGO ?= cargo

archive := crates/ackbo/out/libackbo.a
program := tools/bookkeeper/target/release/bookkeeper
headers := include/ackbo.h include/ackbo_text.h include/ackbo_sheet.h
version := $(shell sed -n 's/^.define ACKBO_VERSION "\(.*\)"$$/\1/p' include/ackbo_text.h)
# A prefix may have blanks, so it is no list of words, and stands in quotes in every command.
prefix := $(if $(filter /%,$(firstword $(PREFIX))),$(PREFIX),$(CURDIR)/$(PREFIX))
folder := $(DESTDIR)$(prefix)
pc := $(folder)/lib/pkgconfig/ackbo.pc
# The prefix as the pkg-config file has it, with what sed and pkg-config take for signs of their own escaped.
written = $$(printf '%s' '$(prefix)' | sed -e 's/[ \\]/\\&/g' -e 's/[&|\\]/\\&/g')

.PHONY: install install-library install-bookkeeper uninstall

install: install-library install-bookkeeper

install-library: $(archive)
	$(INSTALL) -d '$(folder)/include' '$(folder)/lib/pkgconfig'
	$(INSTALL) -m 644 $(headers) '$(folder)/include'
	$(INSTALL) -m 644 $(archive) '$(folder)/lib'
	sed -e "s|@PREFIX@|$(written)|" -e 's|@VERSION@|$(version)|' ackbo.pc.in > '$(pc)'
	@pkg-config --exists ackbo 2> /dev/null || \
	    echo "pkg-config finds ackbo after: export PKG_CONFIG_PATH='$(prefix)/lib/pkgconfig'"

install-bookkeeper: $(archive)
	$(CARGO) build --release --offline --quiet --manifest-path tools/bookkeeper/Cargo.toml
	$(INSTALL) -d '$(folder)/bin'
	$(INSTALL) -m 755 $(program) '$(folder)/bin'

uninstall:
	cd '$(folder)' && rm -f $(headers) lib/libackbo.a lib/pkgconfig/ackbo.pc bin/bookkeeper

# An archive that is there is taken as it is: rt lib in crates/ackbo makes a new one.
$(archive):
	cd crates/ackbo && rt lib
