# `make` or `make help` lists the targets. `rt` is the toolchain's command; RT names another one.
RT ?= rt
export RT

PREFIX ?= /usr/local
DESTDIR ?=
C_FLAGS := -std=gnu11 -O2 -Wall -Wextra -Wconversion -Wshadow -Werror
export PREFIX DESTDIR

.PHONY: help try demo build texts capture packages quick mutants crate test trials lint gate install uninstall deb wheel \
	refused-growth fuzz bench clean

help: ## lists the targets
	@grep -E '^[a-z-]+:.*## ' Makefile | sed -E 's/:[^#]*## /\t/' | expand -t 18

try: ## in a minute: compiles the program with checks as it runs and WITHOUT proof, and shows the recording of make demo
	dev/build/unproved.py
	UNPROVED=1 dev/build/demo.sh

demo: build ## builds the program, and shows a recording from filter to extracted frames
	dev/build/demo.sh

build: ## proves the program and all that it stands on: bin/bpfrec, and bin/capture if libpcap-dev is installed
	@dev/build/build.py $(if $(KEEP_COSTS),--keep-costs)

texts: ## the manual pages and the plugin for Wireshark, in bin/: they need no build
	@dev/package/make_texts.py

# They stand beside the program where it is built, and where it is tried.
try build test trials: texts

capture: ## bin/capture alone, which makes feeds of interfaces; it needs libpcap-dev
	@$(MAKE) -s -C capture

packages: ## installs Debian's packages that builds and tests need, by apt-get, as root
	@dev/package/install_packages.sh

quick: ## five minutes, without root or a build: tests, checks, and the crates' tests with no proof
	@dev/build/quick.py

mutants: ## wrong bodies that tests have to refuse, planted one by one: NAMES=rattle/ring, or SECONDS=60 for a draw
	@dev/build/mutants.py $(NAMES) $(if $(SECONDS),--seconds $(SECONDS)) $(if $(SEED),--seed $(SEED))

crate: ## one crate: its proof, its edits that must fail, its tests: make crate C=rec_lane
	@dev/build/crate.py $(C)

trials: ## what runs the built program, its tools, interfaces and disks; some alone: make trials PATHS=dev/trials/read
	@dev/build/trials.py $(PATHS)

test: ## all: the proofs of what is shipped, tests, stored runs, the edits of what changed, and trials
	@dev/build/test.py

gate: ## everything from nothing by the toolchain's gate: proofs, every edit, tests, two compilers
	@dev/build/gate.py

install: ## installs what make build has made, with the tools and the pages: PREFIX=/usr/local DESTDIR=..
	@dev/package/install.sh

uninstall: ## removes what make install has installed
	@dev/package/install.sh --uninstall

deb: ## Debian packages of the same: bin/bpfrec_<version>_<architecture>.deb, bpfrec-tools and python3-bpfrec
	@dev/package/make_deb.sh

wheel: ## the Python package for pip: bin/bpfrec-<version>-py3-none-any.whl, which needs no build
	@dev/package/make_wheel.py

refused-growth: build ## refuses each growth of memory of each command, in turn
	cd crates/test_recorder && $(RT) test -- without_memory
	cd crates/test_reader && $(RT) test -- without_memory
	dev/trials/long/refused_growth.py

fuzz: build ## drawn and damaged inputs for an hour; SECONDS=60 for a minute, SEED=2 for others
	dev/trials/long/fuzz.py --seed $(or $(SEED),1) --seconds $(or $(SECONDS),3600)

bench: build bin/pcap_filter bin/record_feed ## times the filter machine and the whole recorder beside libpcap's
	@command -v python3 || { echo "make bench needs libpcap-dev, python3 and cc: python3 is missing"; exit 1; }
	dev/build/build.py bench
	bench/compare.py bin/bench bin/pcap_filter bin/bench_work bin/bpfrec
	bench/record.py bin/bpfrec bin/record_feed

bin/pcap_filter bin/record_feed: bin/%: bench/%.c
	@command -v $(CC) || { echo "make bench needs libpcap-dev, python3 and cc: $(CC) is missing"; exit 1; }
	@test -f /usr/include/pcap/bpf.h || \
		{ echo "make bench needs libpcap-dev, python3 and cc: libpcap-dev is missing"; exit 1; }
	@mkdir -p bin
	$(CC) $(C_FLAGS) -o $@ $< -lpcap -lpthread

bin/check_sequence: bench/check_sequence.c
	@mkdir -p bin
	$(CC) $(C_FLAGS) -o $@ $< -ldeflate -lz

bin/send_frames: bench/send_frames.c
	@mkdir -p bin
	$(CC) $(C_FLAGS) -o $@ $<

lint: ## how Python, C, scripts and English are written, and that pages are up to date; WITHOUT=mypy leaves it out
	@dev/checks/style.py $(addprefix --without=,$(WITHOUT))

clean: ## removes what a build has made
	rm -rf bin crates/*/out
