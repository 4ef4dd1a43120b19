# What C and Python programmers get beside the static library: rules for the Makefile, which includes this file.

# The test of the short calls over a table, and the same over calls with a fault each, which it has to find.
TABLE_CALLS := init add mark strike restore merge check other build mend outlets districts which quote breaking digs plan_digs total best detours groups paths read write
TABLE_TEST := tests/table_test.c tests/shared.c tests/plain_work.c tests/plain.c
TABLE_HEADERS := tests/shared.h tests/plain_work.h tests/plain.h tests/faulty_table.h include/star.h
$(BUILD)/table_test: $(LIBRARY) $(TABLE_TEST) $(TABLE_HEADERS)
	$(CC) -std=c99 $(CFLAGS) -Iinclude -Itests -o $@ $(TABLE_TEST) $(LIBRARY) -pthread

FAULTY_TABLE := $(foreach call,$(TABLE_CALLS),-Dstar_table_$(call)=faulty_table_$(call))
$(BUILD)/table_test_faulty: $(LIBRARY) $(TABLE_TEST) $(TABLE_HEADERS) tests/faulty_table.c
	$(CC) -std=c99 $(CFLAGS) -Iinclude -c -o $(BUILD)/faulty_table.o tests/faulty_table.c
	$(CC) -std=c99 $(CFLAGS) -Iinclude -Itests $(FAULTY_TABLE) -o $@ $(TABLE_TEST) $(BUILD)/faulty_table.o $(LIBRARY) -pthread

# The shared library: all of the static one, with the names of the header global, under one symbol version, and no other.
SONAME := libstar.so.$(firstword $(subst ., ,$(VERSION)))
SHARED := $(BUILD)/libstar.so.$(VERSION)
$(BUILD)/libstar.map: include/names.sed include/star.h
	@mkdir -p $(BUILD)
	@{ echo 'STAR_0 {'; echo 'global:'; sed -n -f include/names.sed include/star.h | sed 's/$$/;/'; echo 'local: *;'; echo '};'; } >$@

SHARING := -Wl,-soname,$(SONAME) -Wl,--version-script=$(BUILD)/libstar.map -Wl,-z,defs -Wl,-z,text -Wl,-z,relro -Wl,-z,now
$(SHARED): $(LIBRARY) $(BUILD)/libstar.map
	$(CC) -shared $(LDFLAGS) $(SHARING) -o $@ -Wl,--whole-archive $(LIBRARY) -Wl,--no-whole-archive
	ln -sf $(@F) $(BUILD)/$(SONAME)
	ln -sf $(SONAME) $(BUILD)/libstar.so

shared: $(SHARED)

# Manual pages of section 3, from the header's comments.
PAGES := $(BUILD)/man3
$(PAGES): include/manual.py include/star.h
	@rm -rf $@
	python3 -B include/manual.py include/star.h $@

manual3: $(PAGES)

# The Python package with the shared library inside. It is what pip installs, so that it is held against the record as what is installed is.
WHEELS := $(BUILD)/wheel
wheel: checked $(SHARED)
	@rm -rf $(WHEELS)
	@mkdir -p $(WHEELS)
	$(PYTHON) python/backend.py $(SHARED) $(WHEELS)

manual3: $(PAGES)

# Ten tasks with the library, networkx and LEMON, side by side.
tasks: $(SHARED)
	$(PYTHON) bench/tasks/compare.py $(BUILD)

all: $(SHARED) $(PAGES)
outside-built: $(BUILD)/table_test $(BUILD)/table_test_faulty $(SHARED) $(PAGES)

# What is installed beside the header, the static library, the console and star.pc.
PACKAGE := $(DESTDIR)$(PREFIX)/lib/cmake/star
MANUALS3 := $(DESTDIR)$(PREFIX)/share/man/man3
install: install-library
install-library: $(SHARED) $(PAGES)
	install -d $(DESTDIR)$(PREFIX)/lib $(PACKAGE) $(MANUALS3)
	install -m 755 $(SHARED) $(DESTDIR)$(PREFIX)/lib
	ln -sf $(notdir $(SHARED)) $(DESTDIR)$(PREFIX)/lib/$(SONAME)
	ln -sf $(SONAME) $(DESTDIR)$(PREFIX)/lib/libstar.so
	install -m 644 include/starConfig.cmake $(PACKAGE)
	sed 's|@VERSION@|$(VERSION)|' include/starConfigVersion.cmake.in >$(PACKAGE)/starConfigVersion.cmake
	install -m 644 $(PAGES)/*.3 $(MANUALS3)

uninstall: uninstall-library
uninstall-library:
	rm -f $(DESTDIR)$(PREFIX)/lib/libstar.so* $(PACKAGE)/starConfig.cmake $(PACKAGE)/starConfigVersion.cmake
	rm -f $(MANUALS3)/libstar.3 $(patsubst %,$(MANUALS3)/%.3,$(shell sed -n -f include/names.sed include/star.h))

.PHONY: shared manual3 tasks wheel install-library uninstall-library
