# Builds the proved program by bin/build-usbguard, installs it with its manual
# pages, settings and service, and makes a Debian package of them. Where the
# program is proved of these sources already, nothing is built.
#
#   make
#   make install DESTDIR=/somewhere
#   make deb
#   make rpm
#   make version
#
# With PROGRAM=PATH that program is taken, and nothing is built.

PROGRAM = crates/usbguard/out/usbguard
DESTDIR =

PACKAGE = usbguard-rattle
# The version that the program tells. Only the commit of that release's tag has just this; others have the date and the commit's id behind
# it, which dpkg sorts before the release (~) until there is one, and then behind it (+).
RELEASE = $(shell sed -n 's/^const VERSION.*"\(.*\)";/\1/p' crates/usbguard/src/about.rt)
COMMIT = $(shell git log -1 --date=format:%Y%m%d --format=%cd.%h --abbrev=7)
VERSION = $(RELEASE)$(shell git describe --exact-match --match v$(RELEASE) >/dev/null 2>&1 || \
	{ git rev-parse -q --verify v$(RELEASE) >/dev/null && printf + || printf '~'; echo $(COMMIT); })$(UNPROVED)
# Behind the version of a package whose program isn't the one that bin/build-usbguard has proved of these sources.
UNPROVED = $(shell root="$(CURDIR)" sh -c '. bin/sources.sh; program=$$1; is_proved || echo "~unproved"' sh "$(PROGRAM)")

prefix = /usr
sysconfdir = /etc
bindir = $(prefix)/bin
sbindir = $(prefix)/sbin
libexecdir = $(prefix)/libexec
mandir = $(prefix)/share/man
docdir = $(prefix)/share/doc/$(PACKAGE)
unitdir = $(prefix)/lib/systemd/system
bashdir = $(prefix)/share/bash-completion/completions
zshdir = $(prefix)/share/zsh/vendor-completions

confdir = $(sysconfdir)/usbguard
INSTALL = install
# The scripts beside the program: all but usbguard-daemon, which has a page and a folder of its own, have usbguard(1) and its completion.
SCRIPTS = usbguard-script usbguard-check usbguard-access usbguard-policy usbguard-rule-parser usbguard-status
DOCS = README.md CHANGELOG.md CONTRIBUTING.md LICENSE SECURITY.md $(sort $(wildcard docs/*.md))

all: program

ifeq ($(origin PROGRAM),file)
program:
	@bin/build-usbguard
else
program:
	@[ -x "$(PROGRAM)" ] || { echo "make: there is no program at $(PROGRAM)" >&2; exit 1; }
endif

install: program
	$(INSTALL) -d -m 755 "$(DESTDIR)$(bindir)" "$(DESTDIR)$(sbindir)" "$(DESTDIR)$(libexecdir)"
	$(INSTALL) -d -m 755 "$(DESTDIR)$(mandir)/man1" "$(DESTDIR)$(mandir)/man5" "$(DESTDIR)$(mandir)/man8"
	$(INSTALL) -d -m 755 "$(DESTDIR)$(unitdir)" "$(DESTDIR)$(bashdir)" "$(DESTDIR)$(zshdir)"
	$(INSTALL) -d -m 755 "$(DESTDIR)$(docdir)" "$(DESTDIR)$(docdir)/docs" "$(DESTDIR)$(docdir)/examples"
	$(INSTALL) -m 755 "$(PROGRAM)" "$(DESTDIR)$(bindir)/usbguard"
	$(INSTALL) -m 755 $(SCRIPTS:%=bin/%) "$(DESTDIR)$(bindir)"
	$(INSTALL) -m 755 bin/usbguard-daemon "$(DESTDIR)$(sbindir)"
	$(INSTALL) -m 755 packaging/usbguard-prepare "$(DESTDIR)$(libexecdir)/usbguard-prepare"
	$(INSTALL) -m 755 packaging/usbguard-carry "$(DESTDIR)$(libexecdir)/usbguard-carry"
	$(INSTALL) -m 755 packaging/usbguard-sockets "$(DESTDIR)$(libexecdir)/usbguard-sockets"
	$(INSTALL) -m 644 man/usbguard.1 "$(DESTDIR)$(mandir)/man1/usbguard.1"
	for script in $(SCRIPTS); do ln -sf usbguard.1 "$(DESTDIR)$(mandir)/man1/$$script.1"; done
	$(INSTALL) -m 644 man/usbguard-daemon.8 "$(DESTDIR)$(mandir)/man8"
	$(INSTALL) -m 644 man/usbguard-daemon.conf.5 man/usbguard-replay.5 man/usbguard-rules.conf.5 \
		"$(DESTDIR)$(mandir)/man5"
	sed -e 's|/usr/bin/usbguard|$(bindir)/usbguard|' -e 's|/usr/libexec/|$(libexecdir)/|' packaging/usbguard.service \
		> "$(DESTDIR)$(unitdir)/usbguard.service"
	chmod 644 "$(DESTDIR)$(unitdir)/usbguard.service"
	sed 's|/usr/libexec/|$(libexecdir)/|' packaging/usbguard-prepare.service > "$(DESTDIR)$(unitdir)/usbguard-prepare.service"
	chmod 644 "$(DESTDIR)$(unitdir)/usbguard-prepare.service"
	$(INSTALL) -m 644 packaging/usbguard.bash "$(DESTDIR)$(bashdir)/usbguard"
	for script in $(SCRIPTS) usbguard-daemon; do ln -sf usbguard "$(DESTDIR)$(bashdir)/$$script"; done
	$(INSTALL) -m 644 packaging/usbguard.zsh "$(DESTDIR)$(zshdir)/_usbguard"
	$(INSTALL) -m 644 $(filter-out docs/%,$(DOCS)) "$(DESTDIR)$(docdir)"
	$(INSTALL) -m 644 $(filter docs/%,$(DOCS)) "$(DESTDIR)$(docdir)/docs"
	$(INSTALL) -m 644 examples/* "$(DESTDIR)$(docdir)/examples"
	$(MAKE) --no-print-directory install-conf

# Settings and rules that are there stay as they are.
install-conf:
	$(INSTALL) -d -m 755 "$(DESTDIR)$(confdir)"
	[ -d "$(DESTDIR)$(confdir)/IPCAccessControl.d" ] || \
		$(INSTALL) -d -m 700 "$(DESTDIR)$(confdir)/IPCAccessControl.d"
	[ -d "$(DESTDIR)$(confdir)/rules.d" ] || $(INSTALL) -d -m 700 "$(DESTDIR)$(confdir)/rules.d"
	[ -e "$(DESTDIR)$(confdir)/usbguard-daemon.conf" ] || \
		$(INSTALL) -m 600 packaging/usbguard-daemon.conf "$(DESTDIR)$(confdir)/usbguard-daemon.conf"
	[ -e "$(DESTDIR)$(confdir)/rules.conf" ] || \
		$(INSTALL) -m 600 /dev/null "$(DESTDIR)$(confdir)/rules.conf"

deb: program
	PROGRAM="$(PROGRAM)" packaging/make-deb.sh "$(PACKAGE)" "$(VERSION)"

rpm: program
	PROGRAM="$(PROGRAM)" packaging/make-rpm.sh "$(PACKAGE)" "$(VERSION)"

version:
	@echo "$(VERSION)"

.PHONY: all program install install-conf deb rpm version
