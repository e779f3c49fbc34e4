# make            proves and builds the service, out/forkproxyd
# make install    installs it with its script, pages, unit, configuration, logrotate and completion
# make install-forkproxy    installs the tool, which `./forkproxy prove` builds, with its page and completion
# make deb        the same as packaging/deb
#
# DESTDIR is put before each path, PREFIX is /usr/local if left out; PROGRAM and TOOL say what is installed, if it is not in out/.
PREFIX = /usr/local
BINDIR = $(PREFIX)/bin
MANDIR = $(PREFIX)/share/man
DOCDIR = $(PREFIX)/share/doc/forkproxyd
UNITDIR = $(PREFIX)/lib/systemd/system
SYSUSERSDIR = $(PREFIX)/lib/sysusers.d
BASHDIR = $(PREFIX)/share/bash-completion/completions
ZSHDIR = $(PREFIX)/share/zsh/site-functions
PROGRAM = out/forkproxyd
TOOL = out/forkproxy
INSTALL = install

all:
	./forkproxy prove forkproxyd

deb:
	packaging/deb

$(PROGRAM) $(TOOL):
	@echo "$@ is missing: ./forkproxy prove forkproxyd, and ./forkproxy prove for the tool, prove and build it" >&2; exit 1

# A configuration that is there already stays as it is.
install: $(PROGRAM)
	$(INSTALL) -d $(DESTDIR)$(BINDIR) $(DESTDIR)$(MANDIR)/man1 $(DESTDIR)$(MANDIR)/man5 $(DESTDIR)$(MANDIR)/man8 $(DESTDIR)$(DOCDIR)/examples $(DESTDIR)$(UNITDIR) $(DESTDIR)$(SYSUSERSDIR)
	$(INSTALL) -d $(DESTDIR)$(BASHDIR) $(DESTDIR)$(ZSHDIR)
	$(INSTALL) -d $(DESTDIR)/etc/default $(DESTDIR)/etc/logrotate.d
	$(INSTALL) -m 755 $(PROGRAM) $(DESTDIR)$(BINDIR)/forkproxyd
	$(INSTALL) -m 755 packaging/forkproxyd-run packaging/forkproxyd-ladder $(DESTDIR)$(BINDIR)
	sed 's|/usr/bin/|$(BINDIR)/|' packaging/forkproxyd.service > $(DESTDIR)$(UNITDIR)/forkproxyd.service
	chmod 644 $(DESTDIR)$(UNITDIR)/forkproxyd.service
	$(INSTALL) -m 644 packaging/forkproxyd.sysusers $(DESTDIR)$(SYSUSERSDIR)/forkproxyd.conf
	$(INSTALL) -m 644 packaging/forkproxyd.8 packaging/forkproxyd-run.8 $(DESTDIR)$(MANDIR)/man8
	$(INSTALL) -m 644 packaging/forkproxyd-ladder.1 $(DESTDIR)$(MANDIR)/man1
	$(INSTALL) -m 644 packaging/forkproxyd.conf.5 $(DESTDIR)$(MANDIR)/man5
	$(INSTALL) -m 644 packaging/completion/forkproxyd.bash $(DESTDIR)$(BASHDIR)/forkproxyd
	$(INSTALL) -m 644 packaging/completion/forkproxyd.bash $(DESTDIR)$(BASHDIR)/forkproxyd-run
	$(INSTALL) -m 644 packaging/completion/forkproxyd.zsh $(DESTDIR)$(ZSHDIR)/_forkproxyd
	$(INSTALL) -m 644 docs/SERVICE.md docs/CONFIGURATION.md docs/SCALING.md CHANGELOG.md THIRD-PARTY.md $(DESTDIR)$(DOCDIR)
	$(INSTALL) -m 644 packaging/grafana-dashboard.json packaging/prometheus-rules.yml packaging/fail2ban-filter.conf $(DESTDIR)$(DOCDIR)/examples
	$(INSTALL) -m 644 packaging/forkproxyd.logrotate $(DESTDIR)/etc/logrotate.d/forkproxyd
	[ -e $(DESTDIR)/etc/default/forkproxyd ] || $(INSTALL) -m 644 packaging/forkproxyd.default $(DESTDIR)/etc/default/forkproxyd
	[ -e $(DESTDIR)/etc/forkproxyd.conf ] || $(INSTALL) -m 644 packaging/forkproxyd.conf $(DESTDIR)/etc/forkproxyd.conf

install-forkproxy: $(TOOL)
	$(INSTALL) -d $(DESTDIR)$(BINDIR) $(DESTDIR)$(MANDIR)/man1 $(DESTDIR)$(BASHDIR) $(DESTDIR)$(ZSHDIR)
	$(INSTALL) -m 755 $(TOOL) $(DESTDIR)$(BINDIR)/forkproxy
	$(INSTALL) -m 644 packaging/forkproxy.1 $(DESTDIR)$(MANDIR)/man1
	$(INSTALL) -m 644 packaging/completion/forkproxy.bash $(DESTDIR)$(BASHDIR)/forkproxy
	$(INSTALL) -m 644 packaging/completion/forkproxy.zsh $(DESTDIR)$(ZSHDIR)/_forkproxy

.PHONY: all deb install install-forkproxy
