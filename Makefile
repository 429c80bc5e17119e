# The ABR end-system rate engine.
#
#   make lib                prove the library and write target/staticlib/libabr.a, of another edition
#                           target/connections-N/libabr.a
#   make demo               two connections, slot by slot, and pictures: of them, and of ten sources at a port
#   make test               the gate: proofs, then every test; of another edition its proofs and tests alone
#   make target TARGET=     the library for another processor, target/TARGET/libabr.a; without a name it says which
#                           there are
#   make page               docs/abr.html, the proved library of 1,024 connections on a page for a browser
#   make manual             the manual as one HTML file with its pictures inside, and as PDF: target/manual
#   make tools              abr-judge and abr-trace, in target/cargo/release
#   make transmitter        a whole transmitter, both ends of a link, and its picture; make demo runs it too
#   make modem              a whole modem with frames, a retrain and short memory, and its picture; make demo runs it
#                           too
#   make install PREFIX=    library, as an archive and as a shared object linked from it, header, abr.pc, what CMake's
#                           find_package(abr) reads, man pages of the calls, the manual and the examples; abr-judge and
#                           abr-trace with man pages and completion for bash. make install-library and make
#                           install-tools do one of both; the first needs no cargo
#   make dist [TARGET=]     the tarball that is sold; only of a commit for which make test has passed
#   make deb [PACKAGES=]    Debian packages of library, header and archive, tools and Python binding, in dist or there
#   make bench              the cost of each call, library and reference, and of a slot of many links
#   make soak               random lists without end, from SEED=n, or for SECONDS=n
#   make soak-targets       random lists on each processor, compared with x86-64, for SECONDS=n (default 3600) on each;
#                           TARGET= for one of them
#   make clean              removes what was made but for proofs, archives and modules
#
# ABR_LIB names another archive than the proved one, which then is not built. CONNECTIONS chooses the edition, for how
# many connections the library is: 16, 64, 256 or 1024 (default). What is made for another edition than 1024 stands in
# target/connections-N.

VERSION := 1.0.0
PREFIX ?= /usr/local
DESTDIR ?=
CC ?= gcc
CFLAGS ?= -O2 -Wall -Wextra
CONNECTIONS ?= 1024
EDITIONS := 16 64 256 1024
PACKAGES ?= dist
DIST := abr-$(VERSION)-$(or $(TARGET),x86_64)

ifneq ($(words $(CONNECTIONS)) $(filter $(CONNECTIONS),$(EDITIONS)),1 $(CONNECTIONS))
$(error CONNECTIONS is one of $(EDITIONS), and not '$(CONNECTIONS)')
endif
export ABR_CONNECTIONS := $(CONNECTIONS)
ifeq ($(CONNECTIONS),1024)
MADE := target
ARCHIVE := target/staticlib/libabr.a
TEST := .ci/run
else
MADE := target/connections-$(CONNECTIONS)
ARCHIVE := $(MADE)/libabr.a
TEST := tests/editions $(CONNECTIONS)
DIST := $(DIST)-connections-$(CONNECTIONS)
export CARGO_TARGET_DIR := $(abspath $(MADE)/cargo)
endif
BUILD := $(MADE)/make
EDITION := -DABR_CONNECTIONS=$(CONNECTIONS)

ifdef ABR_LIB
LIB := $(abspath $(ABR_LIB))
else
LIB := $(abspath $(ARCHIVE))
LIB_GOAL := lib
endif
export ABR_LIB := $(LIB)

.PHONY: lib demo test target page manual tools transmitter modem install install-library install-tools dist deb bench soak \
    soak-targets clean

lib:
	scripts/module

demo: $(LIB_GOAL) transmitter modem
	@mkdir -p $(BUILD)
	$(CC) -std=c99 $(CFLAGS) $(EDITION) -Iinclude examples/two_connections.c $(LIB) -o $(BUILD)/two_connections
	$(BUILD)/two_connections
	cargo run --release --quiet -p abr-picture -- rates $(BUILD)/rates.svg
	cargo run --release --quiet -p abr-picture -- closed-loop $(BUILD)/closed-loop.svg
	@echo "The allowed rates of two connections over time: $(BUILD)/rates.svg"
	@echo "Those of ten sources that share a port: $(BUILD)/closed-loop.svg"

test:
	$(TEST)

target:
	@scripts/target --known "$(TARGET)"
	@scripts/module
	@scripts/target "$(TARGET)"

page: export ABR_CONNECTIONS := 1024
page:
	@scripts/target --known wasm32
	@scripts/module
	@scripts/page

# the same for all editions
MANUAL := target/manual/abr-manual
manual: $(MANUAL).pdf

$(MANUAL).pdf: docs/MANUAL.md scripts/manual packaging/manual.css $(wildcard docs/*.svg docs/*.png)
	@scripts/packages cmark-gfm chromium
	@mkdir -p $(@D)
	scripts/manual $(@D)

tools: $(LIB_GOAL)
	cargo build --release --quiet -p abr-tools
	@echo "$(or $(CARGO_TARGET_DIR),target/cargo)/release/abr-judge and abr-trace; --help says how they are called"

transmitter: $(LIB_GOAL)
	@mkdir -p $(BUILD)
	$(CC) -std=c99 $(CFLAGS) $(EDITION) -Iinclude examples/transmitter.c $(LIB) -o $(BUILD)/transmitter
	$(BUILD)/transmitter $(BUILD)/transmitter.numbers
	@$(BUILD)/transmitter $(BUILD)/own.numbers 0 >/dev/null
	cargo run --release --quiet -p abr-picture --bin draw_transmitter -- $(BUILD)/transmitter.numbers $(BUILD)/own.numbers >$(BUILD)/transmitter.svg
	@echo "Allowed rates, the queue of the network, and what a leased circuit is delivered, both ways: $(BUILD)/transmitter.svg"

modem: $(LIB_GOAL)
	@mkdir -p $(BUILD)
	$(CC) -std=c99 $(CFLAGS) $(EDITION) -Iinclude examples/modem.c $(LIB) -o $(BUILD)/modem
	$(BUILD)/modem $(BUILD)/modem.svg
	@echo "Allowed rates both ways, receive memory, and what a leased channel is delivered: $(BUILD)/modem.svg"

INSTALLED_DOCS := MANUAL.md ASSURANCE.md PERFORMANCE.md CHANGES.md transmitter.svg modem.svg slot-cost.svg links.svg

install: install-library install-tools

install-library: $(LIB_GOAL)
	@mkdir -p $(BUILD)
	@scripts/pc $(PREFIX) $(VERSION) >$(BUILD)/abr.pc
	@scripts/connections $(CONNECTIONS) include/abr.h >$(BUILD)/abr.h
	install -d $(addprefix $(DESTDIR)$(PREFIX)/,lib/pkgconfig lib/cmake/abr include share/man/man3 share/doc/abr/examples)
	install -m 644 $(LIB) $(DESTDIR)$(PREFIX)/lib/libabr.a
	CC="$(CC)" scripts/shared $(LIB) $(VERSION) $(DESTDIR)$(PREFIX)/lib
	install -m 644 $(BUILD)/abr.h $(DESTDIR)$(PREFIX)/include/abr.h
	install -m 644 $(BUILD)/abr.pc $(DESTDIR)$(PREFIX)/lib/pkgconfig/abr.pc
	scripts/cmake $(VERSION) $(DESTDIR)$(PREFIX)/lib/cmake/abr
	install -m 644 $(addprefix docs/,$(INSTALLED_DOCS)) $(wildcard docs/page-*.png) $(DESTDIR)$(PREFIX)/share/doc/abr
	install -m 644 $(wildcard examples/*.c examples/*.h examples/*.out) $(DESTDIR)$(PREFIX)/share/doc/abr/examples
	scripts/man $(DESTDIR)$(PREFIX)/share/man/man3 $(PREFIX)/share/doc/abr/MANUAL.md

install-tools: $(LIB_GOAL)
	scripts/tools $(LIB) $(DESTDIR)$(PREFIX)

ifdef TARGET
dist: manual
	scripts/dist $(DIST) $(MADE)/$(TARGET)/libabr.a $(VERSION) $(TARGET)
else
dist: $(LIB_GOAL) manual
	CC="$(CC)" scripts/dist $(DIST) $(LIB) $(VERSION)
endif

deb: tools manual
	@mkdir -p $(PACKAGES)
	CC="$(CC)" scripts/deb $(LIB) $(VERSION) $(or $(CARGO_TARGET_DIR),target/cargo)/release $(PACKAGES)

bench: $(LIB_GOAL)
	bench/run $(MADE)/bench
	bench/worst $(MADE)/bench
	bench/links $(MADE)/bench

soak: $(LIB_GOAL)
	cargo run --release --quiet -p abr-differential --bin soak -- $(or $(SEED),$(if $(SECONDS),1)) $(SECONDS)

soak-targets:
	tests/targets/run $(TARGET)
	tests/targets/soak $(or $(SECONDS),3600) $(TARGET)

clean:
	rm -rf dist target/manual $(foreach made,target target/connections-*,$(addprefix $(made)/,make cargo tests bench))
