# The words that a packager tries, each a few lines over `rt` and the scripts in tools/.
#
# PREFIX is where things are found, DESTDIR what stands before it while they are packed, PROGRAM the built program, ARCHIVE the
# proved archive of the C library, and OUT the folder for what is packed. SOURCE_DATE_EPOCH is the date of all that, by default that of
# the last commit.

PREFIX = /usr/local
DESTDIR =
PROGRAM = crates/cwr/out/cwr
ARCHIVE = crates/cwr_c/out/libcwr_c.a
OUT = out
STRIP = strip

# The version stands in this one place.
VERSION := $(shell sed -n 's/^const VERSION: &str = "\(.*\)";$$/\1/p' crates/cwr_grammar/src/grammar.rt)
ifndef SOURCE_DATE_EPOCH
SOURCE_DATE_EPOCH := $(shell git -c safe.directory='*' log -1 --format=%ct 2> /dev/null || echo 0)
endif
export SOURCE_DATE_EPOCH ARCHIVE
DATE := $(shell date -u -d @$(SOURCE_DATE_EPOCH) +%F)
RELEASE = cwr-$(VERSION)-linux-x86_64

bin = $(DESTDIR)$(PREFIX)/bin
lib = $(DESTDIR)$(PREFIX)/lib
include = $(DESTDIR)$(PREFIX)/include
share = $(DESTDIR)$(PREFIX)/share
man = $(share)/man/man1
doc = $(share)/doc/cwr
bash = $(share)/bash-completion/completions
zsh = $(share)/zsh/site-functions
fish = $(share)/fish/vendor_completions.d

# what a target needs, and where that is to be had
need = @command -v $(1) > /dev/null || { echo "make: $(1) is missing: $(2)" >&2; exit 1; }
debian = $(call need,$(1),Debian's package $(2) has it)
rt = $(call need,rt,it is the Rattle toolchain's)

# Has programs find the library where it was installed, or says what they need. What is only packed is found where it is unpacked.
found = test -n "$(DESTDIR)" || { PATH="$$PATH:/sbin:/usr/sbin"; \
	if test "$$(id -u)" = 0; then ldconfig; fi; ldconfig -p | grep -q " $(lib)/libcwr.so.1$$" || \
	echo "make: programs don't find $(lib)/libcwr.so.1 yet: run ldconfig as root, or set LD_LIBRARY_PATH=$(lib)"; }

# what is made of the manual, of the program's help and of the toolchain's licences
made = $(addprefix $(OUT)/made/,cwr.1 cwr.bash copyright)

.PHONY: all made try test install install_program install_library uninstall dist deb wheel page clean help
.DELETE_ON_ERROR:

all: ## proves the program and the C library side by side, and builds them
	$(rt)
	$(call debian,python3,python3)
	tools/build
	$(MAKE) made
	@if command -v cc > /dev/null && command -v objcopy > /dev/null; then $(MAKE) $(OUT)/c/cwr.pc; fi # else install says what is missing

$(PROGRAM): $(wildcard crates/*/src/*.rt)
	@echo "make: $@ is missing or older than $(firstword $?): run make first" >&2; exit 1

$(ARCHIVE): $(filter-out $(wildcard crates/cwr/src/*.rt crates/*_tests/src/*.rt),$(wildcard crates/*/src/*.rt))
	@echo "make: $@ is missing or older than $(firstword $?): run make first" >&2; exit 1

# with libcwr.a and libcwr.so.1 beside it
$(OUT)/c/cwr.pc: $(ARCHIVE) tools/c_library $(wildcard bindings/c/cwr.*)
	$(call debian,python3,python3)
	tools/c_library $(OUT)/c $(VERSION)

made: $(made)

$(OUT)/made:
	mkdir -p $@

$(OUT)/made/cwr.1: docs/MANUAL.md tools/manual crates/cwr_grammar/src/grammar.rt | $(OUT)/made
	$(call debian,python3,python3)
	tools/manual --page $(VERSION) $(DATE) > $@

# with those for zsh and fish beside it
$(OUT)/made/cwr.bash: tools/completions $(PROGRAM) | $(OUT)/made
	$(call debian,python3,python3)
	tools/completions $(PROGRAM) $(OUT)/made

$(OUT)/made/copyright: tools/licenses crates.txt | $(OUT)/made
	$(rt)
	tools/licenses > $@

try: ## checks, explains and lints FILE in a minute or two, with nothing proved or installed (FILE=my.cwr)
	$(rt)
	$(call debian,python3,python3)
	@tools/try_file "$(FILE)"

test: ## proves every crate, tries the edits that must fail, and runs all tests
	$(rt)
	rt ci

install: install_program install_library ## puts the program, its manual, completions and documents, and the C library below PREFIX

install_program: $(PROGRAM) $(made)
	install -d $(bin) $(man) $(bash) $(zsh) $(fish) $(doc)/docs $(doc)/samples
	install -m 755 $(PROGRAM) $(bin)/cwr
	install -m 644 $(OUT)/made/cwr.1 $(man)
	install -m 644 $(OUT)/made/cwr.bash $(bash)/cwr
	install -m 644 $(OUT)/made/_cwr $(zsh)
	install -m 644 $(OUT)/made/cwr.fish $(fish)
	install -m 644 README.md $(OUT)/made/copyright $(doc)
	install -m 644 docs/*.md $(doc)/docs
	cp -R samples/. $(doc)/samples && chmod -R u=rwX,go=rX $(doc)/samples

install_library: $(OUT)/c/cwr.pc
	install -d $(lib)/pkgconfig $(include)
	install -m 644 $(OUT)/c/libcwr.a $(OUT)/c/libcwr.so.1 $(lib)
	ln -sf libcwr.so.1 $(lib)/libcwr.so
	install -m 644 $(OUT)/c/cwr.pc $(lib)/pkgconfig
	install -m 644 bindings/c/cwr.h $(include)
	@$(found)

uninstall: ## removes what install put there
	rm -f $(bin)/cwr $(man)/cwr.1 $(bash)/cwr $(zsh)/_cwr $(fish)/cwr.fish
	rm -f $(addprefix $(lib)/,libcwr.a libcwr.so libcwr.so.1 pkgconfig/cwr.pc) $(include)/cwr.h
	rm -rf $(doc)

dist: ## packs what install puts as OUT/cwr-VERSION-linux-x86_64.tar.gz, and its SHA-256
	$(call debian,$(STRIP),binutils)
	rm -rf $(OUT)/dist $(OUT)/made
	$(MAKE) install DESTDIR=$(abspath $(OUT))/dist PREFIX=/$(RELEASE)
	$(STRIP) -R .comment $(OUT)/dist/$(RELEASE)/bin/cwr
	tar -C $(OUT)/dist --sort=name --owner=0 --group=0 --numeric-owner --mode=u=rwX,go=rX --mtime=@$(SOURCE_DATE_EPOCH) \
	    --format=ustar -cf $(OUT)/$(RELEASE).tar $(RELEASE)
	gzip -9nf $(OUT)/$(RELEASE).tar
	cd $(OUT) && sha256sum $(RELEASE).tar.gz > $(RELEASE).tar.gz.sha256

deb: ## packs the program and what goes with it as OUT/cwr_VERSION_amd64.deb
	$(call debian,$(STRIP),binutils)
	$(call debian,dpkg-deb,dpkg)
	$(call debian,dpkg-shlibdeps,dpkg-dev)
	rm -rf $(OUT)/deb $(OUT)/made
	$(MAKE) install_program DESTDIR=$(OUT)/deb PREFIX=/usr zsh='$$(share)/zsh/vendor-completions'
	$(STRIP) -R .comment $(OUT)/deb/usr/bin/cwr
	tools/make_deb $(OUT)/deb $(VERSION) $(OUT)

wheel: $(OUT)/c/cwr.pc ## packs the Python package and the library as a wheel in OUT
	tools/make_wheel $(OUT)/c/libcwr.so.1 $(VERSION) $(OUT)

page: $(ARCHIVE) ## makes the page that shows a file in a browser, as OUT/cwr.html
	$(call debian,wasm-ld,lld)
	mkdir -p $(OUT)
	tools/make_page $(OUT)/cwr.html

clean: ## removes OUT
	rm -rf $(OUT)

help: ## lists these words
	@sed -n 's/^\([a-z]*\):.*## /\1\t/p' Makefile | expand -t 12
