# What packagers call. The work is done by ./lafkundi --prove, ./index --prove, tools/install and tools/deb.
PREFIX = /usr/local
DESTDIR =
# --unproved takes programs of which nothing is proved.
PROGRAMS =

help:
	@echo 'make install PREFIX=/usr/local DESTDIR=         the proved programs, pages for man and completions'
	@echo 'make install PROGRAMS=--unproved PREFIX=        programs of which nothing is proved; some minutes'
	@echo 'make uninstall PREFIX= DESTDIR=                 takes them away'
	@echo 'make deb                                        a package for Debian of them, in this folder'
	@echo './lafkundi --prove and ./index --prove prove and build the programs: about two hours.'

install:
	DESTDIR='$(DESTDIR)' tools/install $(PROGRAMS) '$(PREFIX)'

uninstall:
	DESTDIR='$(DESTDIR)' tools/install --remove '$(PREFIX)'

deb:
	tools/deb $(PROGRAMS)

.PHONY: help install uninstall deb
