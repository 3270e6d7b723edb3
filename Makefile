# make install PREFIX=..   the program with its wrapper, man page, clients, examples and documents
# make dist                the same in dist/apsp-VERSION.tar.gz, with the hashes of its files
#
# The program has to be built first: ./apsp help says how.

PREFIX ?= /usr/local
VERSION := $(word 2,$(shell cat VERSION))
PROGRAM := crates/apsp/out/apsp
HOME_OF := $(DESTDIR)$(PREFIX)/lib/apsp
SHARE := $(DESTDIR)$(PREFIX)/share

.PHONY: install dist

install: $(PROGRAM)
	install -d $(HOME_OF)/crates/apsp/out $(HOME_OF)/wrapper $(HOME_OF)/docs $(DESTDIR)$(PREFIX)/bin
	install -m 755 apsp $(HOME_OF)/apsp
	install -m 755 $(PROGRAM) $(HOME_OF)/crates/apsp/out/apsp
	install -m 644 VERSION $(HOME_OF)/VERSION
	install -m 644 wrapper/usage.txt wrapper/explain.awk wrapper/convert.py $(HOME_OF)/wrapper
	install -m 644 docs/FORMATS.md $(HOME_OF)/docs
	ln -sf ../lib/apsp/apsp $(DESTDIR)$(PREFIX)/bin/apsp
	install -d $(SHARE)/man/man1 $(SHARE)/bash-completion/completions $(SHARE)/doc/apsp $(SHARE)/apsp/examples $(SHARE)/apsp/python
	install -m 644 docs/apsp.1 $(SHARE)/man/man1/apsp.1
	install -m 644 wrapper/completion.bash $(SHARE)/bash-completion/completions/apsp
	install -m 644 README.md CHANGELOG.md docs/*.md $(SHARE)/doc/apsp
	install -m 644 examples/* $(SHARE)/apsp/examples
	install -m 644 clients/python/apsp.py $(SHARE)/apsp/python/apsp.py
	install -d $(DESTDIR)$(PREFIX)/include $(DESTDIR)$(PREFIX)/lib/pkgconfig $(SHARE)/apsp/c
	install -m 644 clients/c/apsp.h $(DESTDIR)$(PREFIX)/include
	install -m 644 clients/c/apsp.c clients/c/apsp.h $(SHARE)/apsp/c
	sed 's|@PREFIX@|$(PREFIX)|; s|@VERSION@|$(VERSION)|' clients/c/apsp.pc.in > $(DESTDIR)$(PREFIX)/lib/pkgconfig/apsp.pc
	if command -v $(CC) >/dev/null 2>&1; then \
	    $(CC) -std=c11 -O2 -c clients/c/apsp.c -o $(HOME_OF)/apsp.o && \
	    $(AR) rcs $(DESTDIR)$(PREFIX)/lib/libapsp.a $(HOME_OF)/apsp.o && rm $(HOME_OF)/apsp.o; \
	fi

dist: $(PROGRAM)
	rm -rf dist/apsp-$(VERSION)
	$(MAKE) install PREFIX=$(CURDIR)/dist/apsp-$(VERSION)
	cd dist/apsp-$(VERSION) && find . -type f ! -name SHA256SUMS | sort | xargs sha256sum > SHA256SUMS
	tar -C dist -czf dist/apsp-$(VERSION).tar.gz apsp-$(VERSION)
	rm -rf dist/apsp-$(VERSION)

$(PROGRAM):
	./apsp load 2 1
