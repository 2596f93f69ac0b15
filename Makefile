# Installs what is built, and builds and proves nothing itself: ./build makes the program, embed/build the libraries.
#
#   make install PREFIX=/usr/local      installs; DESTDIR=FOLDER puts a folder before all paths
#   make install-program install-python install-data    the same without the libraries for C, which embed/build makes
#   make uninstall PREFIX=/usr/local    removes what install put there
#   make help                           says what may be named

PREFIX = /usr/local
BINDIR = $(PREFIX)/bin
LIBDIR = $(PREFIX)/lib
INCLUDEDIR = $(PREFIX)/include
DATADIR = $(PREFIX)/share
MANDIR = $(DATADIR)/man
PYTHONDIR = $(DATADIR)/umc/python
DOCDIR = $(DATADIR)/doc/umc
ZSHDIR = $(DATADIR)/zsh/site-functions
DESTDIR =

PROGRAM = crates/umc/out/umc
LIBRARIES = embed/out

VERSION := $(shell cat VERSION)
SONAME := libumc.so.1
PACKAGES := umc umc/embed umc/lsp
FOLDERS := editors examples
# They stand below DOCDIR as they stand here, so that their links lead somewhere.
DOCUMENTS := README.md CHANGELOG.md CONTRIBUTING.md $(wildcard docs/*.md) \
	$(addsuffix /README.md,bench page reference)
BASH_COMPLETION := bash-completion/completions/um
FISH_COMPLETION := fish/vendor_completions.d/um.fish
COMPLETIONS := $(BASH_COMPLETION) $(FISH_COMPLETION)
INSTALL = install
PYTHON = /usr/bin/env python3

into = $(DESTDIR)$(1)

# Completion that works with and without Debian's python3-argcomplete.
define COMPLETE
import sys
sys.modules["argcomplete"] = None
sys.path.insert(0, "python")
sys.dont_write_bytecode = True
from umc.cli import main
sys.exit(main(["completion", *sys.argv[1:]]))
endef
export COMPLETE

.PHONY: help install install-program install-libraries install-python install-data uninstall

help:
	@sed -n 's/^#  *\(make\)/\1/p' Makefile
	@echo 'These may be named: PREFIX BINDIR LIBDIR INCLUDEDIR DATADIR MANDIR DOCDIR ZSHDIR PYTHONDIR PYTHON DESTDIR' \
		'PROGRAM LIBRARIES'

install: install-program install-libraries install-python install-data

$(PROGRAM):
	@echo "there is no program $(PROGRAM): ./build proves and builds it, PROGRAM=FILE names another" >&2; false

$(LIBRARIES)/libumc.a $(LIBRARIES)/$(SONAME):
	@echo "there is no $@: embed/build builds it, LIBRARIES=FOLDER names another place" >&2; false

install-program: $(PROGRAM)
	$(INSTALL) -d $(call into,$(BINDIR))
	$(INSTALL) -m 755 $(PROGRAM) $(call into,$(BINDIR)/umc)

# The shared library has its version in its name, and two names that lead to it: the one that programs were linked with,
# and the one that -lumc finds.
install-libraries: $(LIBRARIES)/libumc.a $(LIBRARIES)/$(SONAME)
	$(INSTALL) -d $(call into,$(LIBDIR)/pkgconfig) $(call into,$(INCLUDEDIR))
	$(INSTALL) -m 644 $(LIBRARIES)/libumc.a $(call into,$(LIBDIR)/libumc.a)
	$(INSTALL) -m 644 $(LIBRARIES)/$(SONAME) $(call into,$(LIBDIR)/libumc.so.$(VERSION))
	ln -sf libumc.so.$(VERSION) $(call into,$(LIBDIR)/$(SONAME))
	ln -sf $(SONAME) $(call into,$(LIBDIR)/libumc.so)
	$(INSTALL) -m 644 embed/umc.h $(call into,$(INCLUDEDIR)/umc.h)
	sed -e 's|@LIBDIR@|$(LIBDIR)|' -e 's|@INCLUDEDIR@|$(INCLUDEDIR)|' -e 's|@VERSION@|$(VERSION)|' embed/umc.pc.in \
		> $(call into,$(LIBDIR)/pkgconfig/umc.pc)
	chmod 644 $(call into,$(LIBDIR)/pkgconfig/umc.pc)

install-python:
	$(INSTALL) -d $(call into,$(BINDIR)) $(PACKAGES:%=$(call into,$(PYTHONDIR)/%))
	for package in $(PACKAGES); do \
		$(INSTALL) -m 644 python/$$package/*.py $(call into,$(PYTHONDIR))/$$package/ || exit; \
	done
	$(INSTALL) -m 644 VERSION $(call into,$(PYTHONDIR)/umc/VERSION)
	sed -e '1s|.*|\#!$(PYTHON)|' -e 's|Runs `um` from a checkout, without an installation|Runs `um`|' \
		-e 's|^sys.path.insert.*|sys.path.insert(0, "$(PYTHONDIR)")|' um > $(call into,$(BINDIR)/um)
	chmod 755 $(call into,$(BINDIR)/um)

install-data:
	$(INSTALL) -d $(call into,$(DATADIR)/umc/library) $(call into,$(MANDIR)/man1) \
		$(dir $(COMPLETIONS:%=$(call into,$(DATADIR)/%)))
	$(INSTALL) -m 644 library/*.um library/*.sig $(call into,$(DATADIR)/umc/library)/
	for page in um umc; do \
		gzip -9nc python/man/$$page.1 > $(call into,$(MANDIR)/man1)/$$page.1.gz || exit; \
		chmod 644 $(call into,$(MANDIR)/man1)/$$page.1.gz; \
	done
	python3 -c "$$COMPLETE" bash > $(call into,$(DATADIR)/$(BASH_COMPLETION))
	python3 -c "$$COMPLETE" fish > $(call into,$(DATADIR)/$(FISH_COMPLETION))
	chmod 644 $(COMPLETIONS:%=$(call into,$(DATADIR)/%))
	$(INSTALL) -d $(call into,$(ZSHDIR))
	{ echo '#compdef um'; python3 -c "$$COMPLETE" zsh; echo '_bash_complete -o default -F _um'; } \
		> $(call into,$(ZSHDIR))/_um
	chmod 644 $(call into,$(ZSHDIR))/_um
	find $(FOLDERS) -type f ! -name '*~' ! -path '*/__pycache__/*' ! -path '*/out/*' | while IFS= read -r file; do \
		[ -x "$$file" ] && mode=755 || mode=644; \
		$(INSTALL) -D -m $$mode "$$file" "$(call into,$(DATADIR)/umc)/$$file" || exit; \
	done
	for file in $(DOCUMENTS); do \
		$(INSTALL) -D -m 644 $$file "$(call into,$(DOCDIR))/$$file" || exit; \
	done
	for folder in $(FOLDERS); do \
		ln -sfnr "$(call into,$(DATADIR)/umc)/$$folder" "$(call into,$(DOCDIR))/$$folder" || exit; \
	done

uninstall:
	rm -f $(call into,$(BINDIR)/umc) $(call into,$(BINDIR)/um)
	rm -f $(call into,$(LIBDIR)/libumc.a) $(call into,$(LIBDIR)/libumc.so) $(call into,$(LIBDIR)/$(SONAME))
	rm -f $(call into,$(LIBDIR)/libumc.so.$(VERSION)) $(call into,$(LIBDIR)/pkgconfig/umc.pc)
	rm -f $(call into,$(INCLUDEDIR)/umc.h) $(call into,$(MANDIR)/man1/um.1.gz) $(call into,$(MANDIR)/man1/umc.1.gz)
	rm -f $(COMPLETIONS:%=$(call into,$(DATADIR)/%)) $(call into,$(ZSHDIR)/_um)
	rm -rf $(call into,$(PYTHONDIR)/umc) $(call into,$(DATADIR)/umc) $(call into,$(DOCDIR))
