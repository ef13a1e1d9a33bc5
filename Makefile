# The targets of this repository. All but `help` and `documents` need the Rattle toolchain's command `rt` on the path;
# all need GNU make, bash, coreutils, diffutils, grep and sed, and all but `help` need python3. What stands after `##` is
# what `make help` says of a target.

TARGETS = help run try try-check test wrong refused bench bench-limits stress fuzz apctl bridge documents library \
    test-tools test-live picture captures install uninstall deb
.PHONY: $(TARGETS)

# A file's name among the targets would do nothing, or end in a message after all else was made.
OTHERS := $(filter-out $(TARGETS), $(MAKECMDGOALS))
ifneq ($(OTHERS),)
$(error there is no target $(firstword $(OTHERS)), and nothing was begun; `make` lists the targets, and a file is named \
    as in `make try INPUT=my.input` and `make try-check CONFIG=my.toml`)
endif

# For which machine these targets build, by Debian's name of it: amd64 or arm64. Without it, for the one on which they
# run.
FOR_ARCH = apctl bridge deb fuzz test-live
ifneq ($(ARCH),)
ifneq ($(filter-out $(FOR_ARCH), $(or $(MAKECMDGOALS), help)),)
$(error ARCH is for $(FOR_ARCH), and nothing was begun)
endif
endif
export ARCH

# Begins nothing: says what there is to make.
help: ## says this
	@echo 'make TARGET, where TARGET is one of'
	@sed -n 's/^\([a-z-]*\):[^#]*## \(.*\)/\1\t\2/p' Makefile | expand -t 16 | sed 's/^/  /'

# What `run` and `try` give to the program, a configuration and a trace: a file, named from the folder in which make
# runs.
INPUT = examples/three_networks_over_some_intervals/input

# The names as they were given, so that a `$` in one is no variable.
export INPUT_NAME := $(value INPUT)
export CONFIG_NAME := $(value CONFIG)

# Proves what the program stands on, builds it and runs it. Lines on standard error tell how far it is; the report is
# all that stands on standard output, and comes last.
run: apctl ## proves what the program stands on, builds it, and runs it on an example or on INPUT=FILE
	@build/apctl < "$$INPUT_NAME"

# Runs the program without any proof, and says so on standard error: the same report, or its beginning where it has more
# than 1 MiB. Where the program stands built of these sources, that runs at once.
try: ## runs the program without any proof on an example or on INPUT=FILE, in one to two minutes
	@.ci/try < "$$INPUT_NAME"

# Reads the configuration of the file CONFIG alone, without any proof: how many networks it has, or its first fault,
# and what tools/explain says of it.
try-check: ## reads the configuration CONFIG=FILE without any proof
	@.ci/try "$$CONFIG_NAME"

# The gate, whose parts run beside each other (.ci/gate). Proves every crate of which an earlier `rt ci` on this
# machine didn't prove the same files, tries each edit of crates/*/must-fail and the wrong bodies that wrong/gate.txt
# lists, runs each test, runs the program that was built of what was proved over examples/ and tests/, with more and
# more memory, over files and streams that fail and over lines and records that it answers as they come, lets each
# allocation of some calls fail in turn, holds it against two models over hostile input that the commit draws, plays
# four traces at once, twice, and finds edits of wrong/ that can't be applied, names in the documents that aren't
# there, and scripts that don't say how they are used. It runs the tests of the bridge, of the guest's air and of the
# tools, and what clippy, pyflakes and mypy find in them fails it. Takes Debian's packages of .ci/packages, and
# installs those that are missing. The last line is 'N passed, M failed'.
test: ## the gate: proves the crates, tries some wrong bodies, runs the tests
	@.ci/gate

# Tries the wrong bodies of wrong/, of which the gate tries few: all, or with NAME=bss_core those of one crate, as many
# at a time as there are processors, or with JOBS=2 two. The last line is 'N refused, M not'.
wrong: ## tries the wrong bodies of wrong/, all or those of NAME=CRATE
	@JOBS="$(JOBS)" wrong/try $(NAME)

# Lets each allocation of some calls fail in turn, one in each run. The gate does so for what the access point calls.
# For others it makes the runs that the commit draws. The last line is 'N passed, M failed'.
refused: apctl ## lets each allocation of some calls fail in turn
	@.ci/refused build/apctl

# Measures the program on long traces: of probes, of stations that join, doze, poll and wake, of units between air and
# wire, of beacons, and of all these in four networks; then on several traces that are played at once, and on lines that
# it answers as they come.
bench: apctl ## measures the program on long traces
	@bench/measure
	@bench/stations
	@bench/playing
	@bench/living

# Runs the program where its tables are as large as a configuration and a trace allow, and compares each report with
# that of the model of the rules, bench/model.py; prints the seconds and the peak memory.
bench-limits: apctl ## measures it where its tables are full
	@bench/limits

# Plays four traces of 20,000 lines at once over eight networks, a hundred times or with TIMES=5 five, and compares the
# section of each network with what `run` writes of the lines in the order that its frames name. The last line is
# 'N times, M sections compared, 0 differ'.
stress: apctl ## plays four traces at once, a hundred times or TIMES=N times
	@bench/stress $(TIMES)

# Runs the program over hostile frames, wired frames, traces and records, each drawn from a fixed seed, and compares
# each answer with those of two models, octet for octet. The last line is 'N compared, M differ'. With ARCH=arm64 the
# program for that machine runs by qemu-aarch64, and the last line says whether it passed.
fuzz: apctl ## compares the program with two models of the rules over hostile input
	@if [ "$$ARCH" = arm64 ] && [ "$$(uname -m)" != aarch64 ]; then .ci/arm64 fuzz; else bench/fuzz; fi

# The built program, build/apctl, of proved crates. An earlier one stays until it is built, and where a proof fails;
# .ci/origin tells which it is. With ARCH=arm64 build/arm64/apctl, over the same libraries, for which it takes Debian's
# packages gcc-aarch64-linux-gnu, libc6-dev-arm64-cross and libstd-rust-dev:arm64, and installs those that are missing.
apctl: ## proves the program and builds it, as build/apctl
	@.ci/build

# Checks what the documents name: links, paths, sections, functions. A part of the gate. The last line is
# 'N passed, M failed'.
documents: ## checks links, paths and names in the documents
	@.ci/documents

# Tries the whole programs of docs/LIBRARY.md as they stand there, and what the openings of the crates show, without any
# proof. The last line is 'N passed, M failed'.
library: ## tries the programs of docs/LIBRARY.md and of the crates' openings, without any proof
	@tests/library

# Tests the tools of tools/, as the gate does. Takes Debian's packages of tools/dev/install, and installs those that are
# missing. The last line is 'N passed, M failed'.
test-tools: ## tests the tools of tools/
	@tools/dev/install
	@tools/dev/test

# The bridge of tools/live, build/bridge/release/bridge, by Debian's own cargo, and with ARCH=arm64
# build/arm64/bridge/release/bridge. Takes Debian's packages that tools/bridge/build names, and installs those that are
# missing.
bridge: ## builds the bridge of tools/live, by Debian's cargo
	@tools/bridge/build

# Tests tools/live beside the gate: first the parts of its bridge and its own, with what an attacker in one of them would
# try, then, in a guest, unmodified Linux stations that join the networks of the built program, the same as a service of
# systemd, beside NetworkManager and iwd, and from the package of `make deb`, then on an air that loses frames, where
# networks share the air of one radio, and where stations doze, and at last at a site of two access points, these four
# with hostapd beside it. Then a real Prometheus scrapes the status page. SUITE=trixie takes a guest of Debian 13,
# SUITE='bookworm trixie' one after the other (tools/dev/test-live). Takes root and Debian's packages debootstrap,
# e2fsprogs, qemu-system-x86, python3 and prometheus, and those of `make deb`. Each run ends with 'N passed, M failed'.
# ARCH=arm64 takes a guest of that machine, whose processor is emulated, and leaves out what runs outside of the guest,
# but for the tests of the bridge and of the air, which qemu-aarch64 runs.
test-live: apctl ## tests the bridge with real stations in a guest; takes root
	@tools/bridge/build test
	@tools/guest/air/build test
	@[ "$$ARCH" = arm64 ] || tools/dev/test live
	@[ "$$ARCH" = arm64 ] || ATTACKS=yes tools/dev/test Confined Staying
	@tools/dev/test-live
	@tools/dev/test-live service
	@tools/dev/test-live managers
	@tools/dev/test-live networks
	@share/deb
	@tools/dev/test-live package
	@tools/dev/test-live air
	@tools/dev/test-live shares
	@tools/dev/test-live doze
	@tools/dev/test-live site
	@[ "$$ARCH" = arm64 ] || tools/dev/test-prometheus

# Draws the example of three networks, the picture of README.md, and those of examples/README.md.
picture: ## draws the pictures of README.md and docs/
	@tools/dev/install
	@tools/picture $(THREE)/input $(THREE)/stdout --out docs/three_networks.svg
	@for name in $(DRAWN); do \
	    tools/picture examples/$$name/input examples/$$name/stdout --out docs/$$name.svg || exit 1; done

# Makes the captures beside the example of three networks.
captures: ## makes the captures beside the example of three networks
	@tools/dev/install
	@tools/capture-from-run $(THREE)/input $(THREE)/stdout --clutter --out $(THREE)

THREE = examples/three_networks_over_some_intervals
DRAWN = station_roams_between_two_networks units_of_stations_that_doze_too_long

# Installs what was built, with man pages, tools, a sample configuration, a unit of systemd and shell completion, below
# PREFIX, and takes it away again. It builds nothing, and says where build/apctl isn't the program of these sources.
PREFIX = /usr/local
install: ## installs build/apctl, man pages and tools below PREFIX=/usr/local
	@DESTDIR="$(DESTDIR)" share/install "$(PREFIX)"

uninstall: ## takes away what was installed below PREFIX
	@DESTDIR="$(DESTDIR)" share/install --uninstall "$(PREFIX)"

# Packs the program that stands built, with the bridge, as build/waltigon_VERSION_amd64.deb, and the proved libraries as
# build/libwaltigon-dev_VERSION_amd64.deb; with ARCH=arm64 those for that machine. Takes Debian's packages debhelper and
# lintian, and those of `make bridge`, and installs those that are missing. It proves no program, and says at once where
# none is built.
deb: ## packs build/apctl, bridge and tools as a package for Debian
	@share/deb
