# make install [PREFIX=/usr/local] [DESTDIR=]     installs the proved programs and the tools; VAULT_INSTALL=--unproved those without proofs
# make uninstall [PREFIX=/usr/local] [DESTDIR=]   removes them
# make test                                       runs the tests that need no proofs
PREFIX ?= /usr/local

.PHONY: all install uninstall test
all:
	bin/vault build

install:
	bin/vault install --prefix $(PREFIX) $(VAULT_INSTALL)

uninstall:
	bin/vault install --remove --prefix $(PREFIX)

test:
	bin/vault test
