# Fuzzing of what reads a planner's bytes: rules for the Makefile.
# make fuzz SECONDS=n   libFuzzer, half of n seconds over the readers and half over the commands
# make fuzz-replay      their corpora alone, by any compiler
FUZZ := target/fuzz
CORPORA := $(CURDIR)/tests/fuzz/corpus
FUZZ_NEEDS := $(wildcard tests/fuzz/*.[ch] tests/fuzz/*.sh) $(CONSOLE) $(wildcard include/*.c)
FUZZ_NEEDS += $(wildcard console/*.h include/*.h) $(ARCHIVE)

$(FUZZ)/commands: $(FUZZ_NEEDS)
	sh tests/fuzz/compile.sh $(FUZZ) $(ARCHIVE) $(OBJECTS)
$(FUZZ)/commands-replay: $(FUZZ_NEEDS)
	CC='$(CC)' sh tests/fuzz/replays.sh $(FUZZ) $(ARCHIVE)

# The page's program, for the command page: its version and the place of the table alone.
$(FUZZ)/star.html: fuzz.mk include/star.h
	@mkdir -p $(FUZZ)
	@printf '%s\n' '<meta name="generator" content="star $(VERSION)">' \
	  '<div hidden id="table" data-name=""></div>' >$@

# A text that ends a run is left in $(FUZZ): mended, it becomes one of the corpus.
FOUND := $(CURDIR)/$(FUZZ)/found
LIBFUZZER = -max_total_time=$$(($(SECONDS) / 2)) -max_len=8192 -print_final_stats=1 \
  -artifact_prefix=$(CURDIR)/$(FUZZ)/
fuzz: $(FUZZ)/commands $(FUZZ)/star.html
	mkdir -p $(FOUND)/reader $(FOUND)/commands
	$(FUZZ)/reader $(LIBFUZZER) $(FOUND)/reader $(CORPORA)/reader console/examples tests/console
	$(FUZZ)/commands $(LIBFUZZER) -close_fd_mask=2 $(FOUND)/commands $(CORPORA)/commands

outside-built: $(FUZZ)/commands-replay $(FUZZ)/star.html

fuzz-replay: $(FUZZ)/commands-replay $(FUZZ)/star.html
	bash tests/fuzz/run.sh $(FUZZ)

.PHONY: fuzz fuzz-replay
