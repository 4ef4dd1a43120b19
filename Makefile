# make help      this list
# make run       compiles the console without proving it, says so, and checks the yard
# make           the same library and console, the shared library, and the programs readstp, diglist and verdict
# make prove     proves every crate here, with how far it is, and builds all over the proved archives
# make page      target/c/star.html, a page to try plans on (node, clang with WebAssembly)
# make shared    the shared library
# make wheel     the Python package, if the core is proved here or is of the record
# make install PREFIX=DIR     header, libraries, console, manual pages, star.pc, a CMake package; the same holds
# make uninstall PREFIX=DIR   removes these files
# make console   the C anew over the archives that are there
# make test      the whole gate: rt ci (proofs, must-fail edits, programs), the record, tests from outside
# make edits     the wrong programs alone, after make prove
# make outside   the tests from outside alone
# make backends  random calls of every door, compiled in four ways, as WebAssembly among them
# make load SECONDS=n   eight threads, random calls of all doors, for n seconds
# make fuzz SECONDS=n   libFuzzer over the readers of planners' texts and over the console's commands
# make bench     times the doors against other libraries, and plots the times (target/c/bench.svg)
# make counts    the instructions of each call of the bench, by callgrind
# make tasks     ten tasks with the library, networkx and LEMON, side by side: lines and microseconds
# make format    the C in the format of .clang-format
# make format-check   whether it is (rt ci refuses crates that rt fmt would lay out otherwise)
# make sums      writes crates.sum, the record of the gate, anew from the proved archives
# make manual    what the manual page and the documents have from the table of commands (console/pages.c)
# make documents the same, what the documents' examples print, and their pictures
# make clean     removes target
CC ?= cc
CXX ?= c++
CFLAGS ?= -O2 -g -Wall -Wextra -Wpedantic
CXXFLAGS ?= -O2
PREFIX ?= /usr/local
PYTHON ?= python3 -B
JOBS ?= $(shell nproc 2>/dev/null || echo 2)
BUILD := target/c
# The crates whose functions for C the library is made of.
DOORS := cst_door mst1_door path_door change_door stp_door digs_door plan_digs_door quote_door breaking_door which_door districts_door mend_door outlets_door restore_door total_door detour_door groups_door file_door file_write_door best_door
# The archives over which the C is built: compiled without a proof, until make prove puts the proved ones there.
OBJECTS := target/objects
ARCHIVES := $(DOORS:%=$(OBJECTS)/lib%.a)
ARCHIVE := $(BUILD)/libcore.a
LIBRARY := $(BUILD)/libstar.a
CONSOLE := $(sort $(wildcard console/*.c))
# The programs that read an STP text on standard input, and the archive of their functions.
READSTP := $(BUILD)/readstp
DIGLIST := $(BUILD)/diglist
RUNS := $(OBJECTS)/libprograms_door.a
# The program that reads a table file there, and the archive of its function.
VERDICT := $(BUILD)/verdict
JUDGES := $(OBJECTS)/libverdict_program.a
# All crates with functions for C.
EXPORTS := $(DOORS) programs_door verdict_program
# Whether the gate began in a checkout that had no proofs.
FRESH ?= old
# The kit, for the C that its library os asks for: the words of an error.
KIT = $(shell sh tools/kit.sh)
VERSION := $(shell sed -n 's/^\#define STAR_VERSION "\(.*\)"/\1/p' include/star.h)

all: $(BUILD)/star programs tell

# Compiles the archives of some crates without a proof, and keeps the kit's identity beside them.
define COMPILE
@mkdir -p $(OBJECTS); sh tools/kit.sh --id >$(OBJECTS)/kit
@echo "compiling without a proof, in a minute: $(1)"
@sh tools/compile.sh $(OBJECTS) $(1)
endef

# Where the archives are taken as they are, none is compiled that is there: no kit is needed then.
TAKEN := console checked install uninstall manual help format format-check
ifneq ($(filter-out $(TAKEN),$(or $(MAKECMDGOALS),all)),)
SOURCES := crates.txt tools/compile.sh tools/callers.py $(wildcard $(shell sh tools/kit.sh 2>/dev/null)/KIT-ID) $(sort $(shell find crates -path '*/src/*' -name '*.rt'))
endif

$(OBJECTS)/doors: $(SOURCES)
	@mkdir -p $(OBJECTS) && touch $@.new
	$(call COMPILE,$(DOORS))
	@mv $@.new $@
$(ARCHIVES): $(OBJECTS)/doors
	@[ -e $@ ] || sh tools/compile.sh $(OBJECTS) $(@:$(OBJECTS)/lib%.a=%)
$(RUNS): $(SOURCES)
	$(call COMPILE,programs_door)
$(JUDGES): $(SOURCES)
	$(call COMPILE,verdict_program)

# One archive of all: each has one member, named after its crate, whose only global symbols are its functions for C.
$(ARCHIVE): $(ARCHIVES) Makefile
	@mkdir -p $(BUILD)
	@rm -f $@
	@{ echo "create $@"; printf 'addlib %s\n' $(ARCHIVES); echo save; echo end; } | $(AR) -M

# Whether what is built is proved here, of the record, or not proved: one line.
tell: $(ARCHIVES)
	@$(PYTHON) tools/record.py tell $(OBJECTS) $(DOORS)

# The same of the library that is to be installed; it fails where it is neither.
checked: $(LIBRARY)
	@$(PYTHON) tools/record.py library $(LIBRARY) $(OBJECTS) $(DOORS)

# Proves every crate that has changed, once each, and builds all over the proved archives.
prove:
	$(PYTHON) tools/prove.py $(DOORS)
	@$(MAKE) --no-print-directory all

# The record anew: proves what has changed, then takes the sources and the code of the proved archives.
sums:
	$(PYTHON) tools/prove.py $(EXPORTS)
	$(PYTHON) tools/record.py write $(OBJECTS) crates.sum $(EXPORTS)

# The gate: after rt ci the archives from the proved code, and the record held against them.
archives:
	$(PYTHON) tools/prove.py --gate $(FRESH) $(EXPORTS)
recorded:
	$(PYTHON) tools/record.py check $(OBJECTS) $(EXPORTS)

# The wrong programs and wrong definitions, each of which the prover has to refuse.
edits:
	rt must-fail

console: $(BUILD)/star

help:
	@sed -n 's/^# make/make/p' $(firstword $(MAKEFILE_LIST))

programs: $(READSTP) $(DIGLIST) $(VERDICT)

# The proved functions of the two programs, and a few lines of C that end with the status that they give.
$(READSTP): UNPRINTED := readstp: the answer is not printed whole
$(DIGLIST): UNPRINTED := diglist: the list is not printed whole
$(READSTP) $(DIGLIST): $(BUILD)/%: programs/run.c $(RUNS)
	@mkdir -p $(BUILD)
	$(CC) -std=c99 $(CFLAGS) -DPROGRAM=star_run_$* -DUNPRINTED='"$(UNPRINTED)"' -o $@ $< $(RUNS) $(KIT)/c/libos_c.a
$(VERDICT): programs/verdict.c $(JUDGES)
	@mkdir -p $(BUILD)
	$(CC) -std=c99 $(CFLAGS) -o $@ $< $(JUDGES) $(KIT)/c/libos_c.a

# The part of the library that is written in C: one object, whose global names are those of the header. It is position-independent on purpose, as the
# proved objects are: the static and the shared library have the same objects.
PARTS := $(patsubst %.c,$(BUILD)/parts/%.o,$(sort $(wildcard include/*.c)))
$(PARTS): $(BUILD)/parts/%.o: %.c $(wildcard include/*.h)
	@mkdir -p $(@D)
	$(CC) -std=c99 $(CFLAGS) -fPIC -Iinclude -c -o $@ $<

$(BUILD)/star.o: $(PARTS) include/names.sed
	$(CC) -r -nostdlib -o $@ $(PARTS)
	sed -n -f include/names.sed include/star.h >$(BUILD)/names
	objcopy --keep-global-symbols=$(BUILD)/names $@

# The proved procedures and this part.
$(LIBRARY): $(ARCHIVE) $(BUILD)/star.o
	cp $(ARCHIVE) $@
	$(AR) rs $@ $(BUILD)/star.o

$(BUILD)/star: $(LIBRARY) $(CONSOLE) $(wildcard console/*.h include/*.h)
	$(CC) -std=c99 $(CFLAGS) -ffp-contract=off -Iinclude -o $@ $(CONSOLE) $(LIBRARY) -lm

# The tests of the doors, over one harness: each over the doors, and over doors with a fault each, which it has to find.
DOOR_TESTS := door work quote breaking which digs districts mend outlets detours groups best
HARNESS := shared lent rows plain plain_work plain_asked plain_mend plain_outlets plain_detours plain_groups doors work_cases
$(BUILD)/tests/%.o: tests/%.c $(wildcard tests/*.h) include/star.h
	@mkdir -p $(@D)
	$(CC) -std=c99 $(CFLAGS) -Iinclude -Itests -c -o $@ $<

.PRECIOUS: $(BUILD)/tests/%.o

# Of an archive the linker takes what a test asks for alone.
$(BUILD)/tests/libharness.a: $(HARNESS:%=$(BUILD)/tests/%.o)
	@rm -f $@
	$(AR) rcs $@ $^

$(BUILD)/%_test: $(BUILD)/tests/%_test.o $(BUILD)/tests/faultless.o $(BUILD)/tests/libharness.a $(ARCHIVE)
	$(CC) $(CFLAGS) -o $@ $^ -pthread
$(BUILD)/%_test_faulty: $(BUILD)/tests/%_test.o $(BUILD)/tests/faulty_%.o $(BUILD)/tests/libharness.a $(ARCHIVE)
	$(CC) $(CFLAGS) -o $@ $^ -pthread

PLAIN := $(patsubst %,$(BUILD)/tests/%.o,plain plain_work plain_asked plain_mend plain_outlets plain_detours plain_groups rows)
$(BUILD)/bench: $(ARCHIVE) $(wildcard bench/*.[ch]pp) $(PLAIN) include/star.h
	$(CXX) -std=c++17 $(CXXFLAGS) -Iinclude -Itests $$(pkg-config --cflags igraph 2>/dev/null) -o $@ bench/bench.cpp $(PLAIN) $(ARCHIVE) $$(pkg-config --libs igraph 2>/dev/null)

$(BUILD)/manual: console/manual/manual.c console/pages.c console/pages.h
	@mkdir -p $(BUILD)
	$(CC) -std=c99 $(CFLAGS) -Iconsole -o $@ console/manual/manual.c console/pages.c

manual: $(BUILD)/manual
	for file in $(wildcard console/star.1 README.md docs/GUIDE.md); do $(BUILD)/manual <$$file >$(BUILD)/made && cp $(BUILD)/made $$file || exit 1; done

# What the documents show, made anew: the sections of the table of commands, what examples print, the pictures.
documents: manual $(BUILD)/star programs
	$(PYTHON) tests/docs.py $(BUILD) --write

run: $(BUILD)/star tell
	$(BUILD)/star check console/examples/yard.txt

test:
	bash .ci/run

format:
	clang-format -i $$(find console include programs tests -name '*.[ch]')

format-check:
	bash tests/format.sh

# What stands outside the proofs: the doors against the plain implementation, the import against the plain reader (python3), both under a
# memory checker, the console, the page, and what C and Python programmers get. What they need is built before, since parts of them are made at once.
outside:
	@$(MAKE) --no-print-directory -j $(JOBS) outside-built
	bash tests/outside.sh $(BUILD) $(READSTP) $(DIGLIST)

outside-built: $(BUILD)/star $(DOOR_TESTS:%=$(BUILD)/%_test) $(DOOR_TESTS:%=$(BUILD)/%_test_faulty) $(BUILD)/import_test $(BUILD)/read_tables $(BUILD)/write_tables $(READSTP) $(DIGLIST) $(VERDICT)

# What star_read_table says of the texts of its test.
$(BUILD)/read_tables: tests/tablefile/door.c include/star.h $(LIBRARY)
	$(CC) $(CFLAGS) -Iinclude -o $@ tests/tablefile/door.c $(LIBRARY) -lpthread

# What star_write_table says of the tables of its test.
$(BUILD)/write_tables: tests/tablefile/write_door.c include/star.h $(LIBRARY)
	$(CC) $(CFLAGS) -Iinclude -o $@ tests/tablefile/write_door.c $(LIBRARY) -lpthread

bench: $(BUILD)/bench
	$(BUILD)/bench $(BUILD)/bench.svg

counts: $(BUILD)/bench
	bash bench/counts.sh $(BUILD)/bench

INCLUDES := $(DESTDIR)$(PREFIX)/include
LIBRARIES := $(DESTDIR)$(PREFIX)/lib
PROGRAMS := $(DESTDIR)$(PREFIX)/bin
MANUALS := $(DESTDIR)$(PREFIX)/share/man/man1

install: checked $(BUILD)/star
	install -d $(INCLUDES) $(LIBRARIES)/pkgconfig $(PROGRAMS) $(MANUALS)
	install -m 644 include/star.h $(INCLUDES)/star.h
	install -m 644 $(LIBRARY) $(LIBRARIES)/libstar.a
	install -m 755 $(BUILD)/star $(PROGRAMS)/star
	sed 's|@VERSION@|$(VERSION)|; s|@PREFIX@|$(PREFIX)|' include/star.pc.in >$(LIBRARIES)/pkgconfig/star.pc
	sed 's|@VERSION@|$(VERSION)|' console/star.1 >$(MANUALS)/star.1

uninstall:
	rm -f $(INCLUDES)/star.h $(LIBRARIES)/libstar.a $(PROGRAMS)/star $(LIBRARIES)/pkgconfig/star.pc $(MANUALS)/star.1

clean:
	rm -rf target

# What else C and Python programmers get.

# The shared library and the packages over it, and the interactive page. Nothing is installed that is not proved here or of the record.
-include library.mk page.mk backends.mk fuzz.mk
install-library: checked

.PHONY: help all tell checked prove sums archives recorded edits console programs manual documents run test outside outside-built bench counts install uninstall clean
