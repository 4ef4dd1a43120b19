# The back ends of the kit's compiler, held against each other: rules for the Makefile.
# make backends CALLS=n   n random calls of every door, compiled in four ways
# make load SECONDS=n     eight threads, random calls of all doors for n seconds
BACKENDS := target/backends
CALLS ?= 500
SECONDS ?= 60
CALLS_SOURCES := tests/backends/calls.c tests/backends/sheet.c tests/backends/table.c tests/shared.c $(BACKENDS)/doors.c
CALLS_NEEDS := $(CALLS_SOURCES) $(wildcard tests/backends/*.h) tests/shared.h include/star.h

$(BACKENDS)/doors.c: tests/backends/doors.py include/star.h
	@mkdir -p $(BACKENDS)
	$(PYTHON) tests/backends/doors.py include/star.h $@

$(BACKENDS)/libstar-O0.so: tests/backends/compile.sh tools/compile.sh $(ARCHIVES)
	sh tests/backends/compile.sh $(BACKENDS) $(OBJECTS) $(DOORS)
$(BACKENDS)/libstar-checked.so: $(BACKENDS)/libstar-O0.so

CALLING = $(CC) -std=c99 $(CFLAGS) -Iinclude -Itests -Itests/backends -o $@
COMPARED := tests/backends/backends.c tests/backends/counts.c tests/backends/library.c
$(BACKENDS)/backends: $(COMPARED) $(CALLS_NEEDS)
	$(CALLING) $(COMPARED) $(CALLS_SOURCES) -ldl -pthread

# The stack that each door takes; and calls in eight threads.
LOADED := $(BACKENDS)/stack $(BACKENDS)/load
$(LOADED): $(BACKENDS)/%: tests/backends/%.c tests/backends/library.c $(CALLS_NEEDS)
	$(CALLING) $< tests/backends/library.c $(CALLS_SOURCES) -ldl -pthread

load: $(BACKENDS)/load $(SHARED)
	$(BACKENDS)/load $(SHARED) $(SECONDS)

backends-built: $(BACKENDS)/backends $(LOADED) $(SHARED)
backends-built: $(BACKENDS)/libstar-O0.so $(BACKENDS)/libstar-checked.so

outside-built: backends-built

backends: backends-built $(PAGE_MODULE)
	bash tests/backends/run.sh $(BUILD) $(BACKENDS) $(CALLS)

.PHONY: backends backends-built load
