# Builds, tests, installs and packs the programs. Each target as plain commands: docs/OPERATING.md.
PREFIX = /usr/local
DESTDIR =
# The version of all of it, which the programs have too.
VERSION := $(shell sed -n 's/^pub const VERSION: &str = "\(.*\)";$$/\1/p' crates/nutargs/src/version.rt)
# Where the Debian package is put.
PACKAGES = .
# What is installed and packed: the programs for amd64, or after `make arm64` for arm64, crates/NAME/out/NAME.arm64.
ARCHITECTURE = amd64
BUILT = $(if $(filter arm64,$(ARCHITECTURE)),.arm64)

PROGRAMS = upsd upsc upsrw upscmd
CLIENTS = upsc upsrw upscmd
ROOT = $(DESTDIR)$(PREFIX)
UNITS = $(addprefix lib/systemd/system/, voqarchay.service demodriver@.service nut-server.service.d/unless_upsd.conf)
DRIVER = lib/voqarchay/demodriver

# What is installed below ROOT, and the list of it that an installation leaves, so that no file of anybody else's is taken
# for ours.
MINE = share/voqarchay
DOC = share/doc/voqarchay
TEXTS = README.md SECURITY.md $(addprefix docs/, OPERATING.md power-failure.svg costs.svg costs-small.svg FROM_NUT.md INTEROP.md PROTOCOL.md DRIVER.md PROVED.md LAWS.md COSTS.md)
# Of a link in them to a page that isn't installed the words are left.
UNLINKED = s|\]\(docs/|](|g; s/\[([^]]*)\]\((CHANGELOG|CONTRIBUTING|ARCHITECTURE|DECISIONS|LICENSE)(\.md[^)]*)?\)/\1/g
EXAMPLES = $(addprefix $(DOC)/examples/, upses.conf upsd.users cmdvartab from_ups_conf.conf ups_conf_changed.conf upsd-metrics.service upsd-metrics.timer upsd-alerts.yml record.conf)
PAGES = $(addprefix share/man/man5/, $(notdir $(wildcard man/*.5))) $(addprefix share/man/man8/, $(notdir $(wildcard man/*.8)))
COMPLETIONS = $(addprefix share/bash-completion/completions/, $(PROGRAMS))
FILES = sbin/upsd sbin/from_nut $(addprefix bin/, $(CLIENTS)) $(PAGES) $(addprefix $(DOC)/, $(notdir $(TEXTS))) $(EXAMPLES) $(COMPLETIONS) $(addprefix $(MINE)/, started metrics mask drill) $(DRIVER) $(UNITS)
LIST = $(ROOT)/$(MINE)/installed

# Proves and builds: a program that isn't proved isn't built. It stands as crates/NAME/out/NAME then.
all:
	@python3 tools/build.py $(PROGRAMS) demodriver

# The same programs for ARM64, over the libraries that are built: crates/NAME/out/NAME.arm64.
arm64:
	python3 arm64/programs.py $(PROGRAMS) demodriver

# The server, a driver without hardware and upsc at work, as they stand built. Ctrl-C ends it.
demo:
	@bash tools/demo

# The same, over programs that are not proved, which takes minutes to compile: crates/NAME/out/NAME.try. Nothing installs them.
try:
	@python3 tools/try.py $(PROGRAMS) demodriver && bash tools/demo .try

# The scripts of tests/ over those programs, but what needs proved ones.
test-try:
	@python3 tools/try.py $(PROGRAMS) demodriver && bash tools/test_try

# Measures anew what docs/COSTS.md has, on an idle machine, and writes it there.
costs:
	python3 tools/build.py upsd
	cd crates/netbench && rt run >/dev/null
	python3 tools/costs.py --write

# Every proof from nothing, the edits that must fail, the tests, and the scripts of tests/.
test:
	@python3 tools/kit.py && bash .ci/run

# The scripts of tests/ that need only the programs, over those for ARM64, under qemu-user.
test-arm64:
	bash arm64/test

# Installs what stands built, and builds nothing. Where a file of another package stands in the way, nothing is installed.
install:
	for program in $(PROGRAMS) demodriver; do test -x crates/$$program/out/$$program$(BUILT) || { echo "$$program$(BUILT) isn't built: make, make arm64"; exit 1; }; done
	for file in $(FILES); do \
	    test ! -e $(ROOT)/$$file || grep -qsxF $$file $(LIST) || { echo "$(ROOT)/$$file isn't of this package: take it away, or take another PREFIX"; exit 1; }; \
	done
	test ! -e $(LIST) || while read -r file; do rm -f "$(ROOT)/$$file"; done <$(LIST)
	install -d $(sort $(dir $(addprefix $(ROOT)/, $(FILES))))
	printf '%s\n' $(FILES) >$(LIST)
	install crates/upsd/out/upsd$(BUILT) $(ROOT)/sbin/upsd
	for program in $(CLIENTS); do install crates/$$program/out/$$program$(BUILT) $(ROOT)/bin/$$program || exit 1; done
	install -m 644 man/*.5 $(ROOT)/share/man/man5
	install -m 644 man/*.8 $(ROOT)/share/man/man8
	sed -i '/^\.TH/s/ Voqarchay / "Voqarchay $(VERSION)" /' $(addprefix $(ROOT)/, $(PAGES))
	install -m 644 $(TEXTS) $(ROOT)/$(DOC)
	sed -Ei '$(UNLINKED)' $(ROOT)/$(DOC)/*.md
	for file in $(EXAMPLES) $(UNITS); do \
	    sed 's|/usr/local|$(PREFIX)|' examples/$${file##*/} >$(ROOT)/$$file && chmod 644 $(ROOT)/$$file || exit 1; \
	done
	for file in $(COMPLETIONS); do install -m 644 tools/completion.bash $(ROOT)/$$file || exit 1; done
	install crates/demodriver/out/demodriver$(BUILT) $(ROOT)/$(DRIVER)
	install tools/from_nut $(ROOT)/sbin
	install tools/started tools/metrics tools/mask tools/drill $(ROOT)/$(MINE)

# Takes away what install put there, and no file of yours.
uninstall:
	test ! -e $(LIST) || while read -r file; do rm -f "$(ROOT)/$$file"; done <$(LIST)
	rm -f $(LIST)
	rmdir $(ROOT)/$(dir $(DRIVER)) $(ROOT)/lib/systemd/system/nut-server.service.d $(ROOT)/$(MINE) $(ROOT)/$(DOC)/examples $(ROOT)/$(DOC) 2>/dev/null || true

# Frees what a build leaves but its programs: 7 GB. The next build proves all again.
clean:
	find crates -path '*/out/*' $(foreach program,$(PROGRAMS) demodriver,-not -path '*/$(program)/out/$(program)' -not -path '*/$(program)/out/$(program).arm64') -delete

# The Debian package of what stands built; it builds nothing.
deb:
	bash tools/deb $(VERSION) $(PACKAGES) $(ARCHITECTURE)

# The files of a release, in dist/: packages and tar files for both, their sums, and what is proved of them.
release:
	@bash tools/release --needs
	$(MAKE) all arm64
	bash tools/release $(VERSION)

.PHONY: all arm64 clean costs demo try test-try test test-arm64 install uninstall deb release
