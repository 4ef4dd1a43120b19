# The planner's page: one HTML file, with the doors inside it as WebAssembly.
# make page        target/c/star.html
# make page-test   the page and its module in a browser
PAGE := $(BUILD)/star.html
PAGE_MODULE := $(BUILD)/star.wasm
PAGE_SOURCES := page/build.mjs page/page.html $(wildcard page/*.css page/src/*.js)

# What the console and the page draw by.
PICTURE := console/places.h $(addprefix console/,$(addsuffix .c,places shapes bends coordinates))

$(PAGE_MODULE): page/module.sh $(ARCHIVES) $(wildcard page/freestanding/*.[ch]) include/star.c include/star.h $(PICTURE)
	@mkdir -p $(BUILD)
	sh page/module.sh $@ $(OBJECTS) $(DOORS)

$(PAGE): $(PAGE_MODULE) $(PAGE_SOURCES)
	node page/build.mjs $(PAGE_MODULE) $@

page: $(PAGE)
outside-built: $(PAGE_MODULE) $(if $(shell command -v node),$(PAGE))

# The console finds it in this folder; one that is older than what is installed does not stay.
PAGE_FOLDER := $(DESTDIR)$(PREFIX)/share/star
install: install-page
install-page: checked
	@rm -f $(PAGE_FOLDER)/star.html
	@if [ -e $(PAGE) ]; then install -d $(PAGE_FOLDER) && install -m 644 $(PAGE) $(PAGE_FOLDER); \
	else echo "the page's program is not built (make page): star page writes the page without it"; fi

uninstall: uninstall-page
uninstall-page:
	rm -f $(PAGE_FOLDER)/star.html

page-test: $(SHARED) $(BUILD)/star
	bash tests/page/run.sh $(BUILD)

.PHONY: page page-test install-page uninstall-page
