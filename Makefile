# make             proves the library and builds it, with the command `lef` (tools/build)
# make install     puts them below PREFIX; it proves and builds only what has changed, and else needs no `rt`
# make uninstall   removes what was installed; the folders stay
# make check       tries the library from C, the command and the installing (border/run)
# make demo        shows what the library does (tools/demo)
# make clean       removes what was built; what is proved stays in crates/*/out, and liblef.a in target/staticlib
#
# DESTDIR is put before every place that is written to, and stands in no file. For a shared library in a folder of the system, as
# /usr/local/lib, run ldconfig afterwards.
.POSIX:

PREFIX = /usr/local
bindir = $(PREFIX)/bin
includedir = $(PREFIX)/include
libdir = $(PREFIX)/lib
pkgconfigdir = $(libdir)/pkgconfig
mandir = $(PREFIX)/share/man
INSTALL = install

version = $$(sed -n 's/^.define LEF_H_VERSION "\(.*\)"$$/\1/p' include/lef.h)

.PHONY: all install uninstall check demo clean

all:
	@tools/build

install:
	@case "$(PREFIX)/" in /*) ;; *) echo "install: PREFIX has to start with /" >&2; exit 2 ;; esac
	@tools/build --if-changed
	@set -e; \
	version=$(version); \
	program=target/lef; \
	if [ -e $$program.x86-64 ]; then \
	    program=$$program.x86-64; \
	    echo "the library and the command are for x86-64, and do not run on $$(uname -m) as they are"; \
	fi; \
	$(INSTALL) -d "$(DESTDIR)$(bindir)" "$(DESTDIR)$(includedir)" "$(DESTDIR)$(libdir)" "$(DESTDIR)$(pkgconfigdir)" "$(DESTDIR)$(mandir)/man1"; \
	$(INSTALL) -m 755 $$program "$(DESTDIR)$(bindir)/lef"; \
	$(INSTALL) -m 644 include/lef.h "$(DESTDIR)$(includedir)/lef.h"; \
	$(INSTALL) -m 644 target/staticlib/liblef.a "$(DESTDIR)$(libdir)/liblef.a"; \
	$(INSTALL) -m 644 target/liblef.so.$$version "$(DESTDIR)$(libdir)/liblef.so.$$version"; \
	ln -sf liblef.so.$$version "$(DESTDIR)$(libdir)/liblef.so.$${version%%.*}"; \
	ln -sf liblef.so.$${version%%.*} "$(DESTDIR)$(libdir)/liblef.so"; \
	$(INSTALL) -m 644 docs/lef.1 "$(DESTDIR)$(mandir)/man1/lef.1"; \
	pc="$(DESTDIR)$(pkgconfigdir)/lef.pc"; \
	{ printf '%s\n' "prefix=$(PREFIX)" "libdir=$(libdir)" "includedir=$(includedir)"; cat target/lef.pc; } > "$$pc"; \
	chmod 644 "$$pc"; \
	echo "installed lef $$version below $(DESTDIR)$(PREFIX)"

uninstall:
	@version=$(version); \
	rm -f "$(DESTDIR)$(bindir)/lef" "$(DESTDIR)$(includedir)/lef.h" "$(DESTDIR)$(libdir)/liblef.a" "$(DESTDIR)$(libdir)/liblef.so" \
	    "$(DESTDIR)$(libdir)/liblef.so.$${version%%.*}" "$(DESTDIR)$(libdir)/liblef.so.$$version" \
	    "$(DESTDIR)$(mandir)/man1/lef.1" "$(DESTDIR)$(pkgconfigdir)/lef.pc"; \
	echo "removed lef $$version from $(DESTDIR)$(PREFIX)"

check:
	@sh border/run

demo:
	@tools/demo

clean:
	rm -f target/lef target/lef.x86-64 target/liblef.so.* target/liblef.map target/lef.pc target/built target/begun target/INV_X1.svg
	@echo "what is proved stays in crates/*/out, and target/staticlib/liblef.a with it"
