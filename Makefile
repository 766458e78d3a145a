# make test      proves every crate, tries the edits that must be refused, runs the programs and the other tests.
#                The last line is 'N passed, 0 failed'.
# make run       proves the program deliver and runs it on ORDER: ENGINE SEED BLOCK FIRST KIND COUNT [raw].
# make lib       proves the library and puts libgirderpeach.a, libgirderpeach.so and girderpeach.pc in target/lib, and for newer processors
#                the archive in target/lib/LEVEL and the shared object in target/lib/glibc-hwcaps: the loader takes the newest that runs.
# make install   puts these, the header and deliver below PREFIX.
# make example   builds target/example/paths from examples/paths.c.
# make bench     times the fills beside the Rust's and other generators, and prints the tables of docs/BENCHMARKS.md.

# Where the Rust source of tpt-simd-rng lies (tests/oracle, bench). Without it those comparisons are skipped, and said to be.
RUST_SRC ?= ../shared/docs/src

PREFIX = /usr/local
DESTDIR =

VERSION = 0.3.0
# Programs that were linked with the shared object ask for it by this name. It changes when a call changes.
SONAME = libgirderpeach.so.1

# The levels of x86-64 that everything is compiled for beside plain x86-64, by the names that glibc's loader looks for; and where
# tools/compile puts what it makes, a folder for each level.
LEVELS = x86-64-v3 x86-64-v4
COMPILED = target/levels
LIB = target/lib

# Another archive to make the library of, for plain x86-64 alone (tests/host).
ARCHIVE =
PLAIN = $(or $(ARCHIVE),$(COMPILED)/x86-64/libgirderpeach.a)
HIGHER = $(if $(ARCHIVE),,$(LEVELS))

PROVED := crates.txt $(shell find crates -path '*/out' -prune -o '(' -name '*.rt' -o -name '*.antt' ')' -print)

# An archive of which the proof failed does not stay. And one thing at a time: two runs of rt would write to the same logs.
.DELETE_ON_ERROR:
.NOTPARALLEL:

.PHONY: test run lib install example bench clean $(LIB)/girderpeach.pc

test:
	@RUST_SRC='$(RUST_SRC)' tests/run

# Proved again only when a file changed: it takes the better part of a minute, and where `rt ci` has not just run more (tools/build).
$(COMPILED)/%.made: $(PROVED) tools/compile tools/build
	@rm -f $@
	tools/compile $* $(COMPILED) x86-64 $(LEVELS)
	@touch $@

target/staticlib/lib%.a: $(PROVED) tools/build
	@mkdir -p $(@D)
	tools/build $* $@

ORDER = xoshiro 42 0 0 normal_f64 20

# target/deliver is the program for the level of this machine. Its exit status is 0 whatever became of an order: the closing line on
# standard error says that all was delivered, and without it this fails. What the prover says is kept in target/deliver.log, so that nothing
# but the values goes to standard output.
run:
	@mkdir -p target
	@$(MAKE) -q $(COMPILED)/deliver.made || echo 'proving deliver and all that it stands on: some minutes, the first time' >&2
	@$(MAKE) $(COMPILED)/deliver.made >target/deliver.log 2>&1 || { tail -n 20 target/deliver.log >&2; false; }
	@cat $(COMPILED)/deliver.why >&2 2>/dev/null || true
	@level=$$(tools/levels | tail -n 1); [ -x $(COMPILED)/$$level/deliver ] || level=x86-64; ln -sf levels/$$level/deliver target/deliver
	@target/deliver $(ORDER) 2>target/ends; cat target/ends >&2; \
	    grep -qxE '[0-9]+ [0-9]+' target/ends || { echo 'no closing line: the order was not delivered' >&2; false; }

lib: $(LIB)/libgirderpeach.a $(LIB)/libgirderpeach.so $(LIB)/girderpeach.pc

# A library is the proved archive, its fills under the names by which host/environment.c calls them, and that file's code in their place.
SHIPPED = objcopy $(foreach engine,xoshiro philox,--redefine-sym gp_$(engine)_fill=girderpeach_$(engine)_fill) $(1) $(2) && \
    $(CC) -std=c99 -O2 -fPIC -Iinclude -c host/environment.c -o $(LIB)/environment.o && ar rsD $(2) $(LIB)/environment.o && rm $(LIB)/environment.o

$(LIB)/libgirderpeach.a: $(or $(ARCHIVE),$(COMPILED)/girderpeach.made) host/environment.c include/girderpeach.h
	@mkdir -p $(LIB)
	@rm -f $@
	$(call SHIPPED,$(PLAIN),$@)

# Only the calls of the header are visible from outside.
SHARED = echo '{ global: gp_*; local: *; };' | \
    $(CC) -shared -Wl,-soname,$(SONAME),--version-script,/dev/stdin,-z,defs -Wl,--whole-archive $(1) -Wl,--no-whole-archive -o $(2)

$(LIB)/$(SONAME): $(LIB)/libgirderpeach.a
	$(call SHARED,$<,$@)
	@rm -rf $(LIB)/glibc-hwcaps $(LEVELS:%=$(LIB)/%)
	for level in $(HIGHER); do \
	    [ -f $(COMPILED)/$$level/libgirderpeach.a ] || continue; \
	    mkdir -p $(LIB)/$$level $(LIB)/glibc-hwcaps/$$level && \
	    $(call SHIPPED,$(COMPILED)/$$level/libgirderpeach.a,$(LIB)/$$level/libgirderpeach.a) && \
	    $(call SHARED,$(LIB)/$$level/libgirderpeach.a,$(LIB)/glibc-hwcaps/$$level/$(SONAME)) || exit 1; \
	done

$(LIB)/libgirderpeach.so: $(LIB)/$(SONAME)
	ln -sf $(SONAME) $@

# Made each time, because it names PREFIX.
$(LIB)/girderpeach.pc:
	@mkdir -p $(LIB)
	printf '%s\n' 'prefix=$(PREFIX)' 'Name: girderpeach' 'Description: Proved random numbers by seed, block and length' \
	    'Version: $(VERSION)' 'Cflags: -I$${prefix}/include' 'Libs: -L$${prefix}/lib -lgirderpeach' >$@

# What is for one level only stands below lib/girderpeach/LEVEL, but for the shared objects, which stand where the loader looks. What an
# earlier version installed for a level is removed first: the loader would take it.
install: lib $(COMPILED)/deliver.made
	install -d $(DESTDIR)$(PREFIX)/include $(DESTDIR)$(PREFIX)/lib/pkgconfig $(DESTDIR)$(PREFIX)/bin
	install -m 644 include/girderpeach.h $(DESTDIR)$(PREFIX)/include
	install -m 644 $(LIB)/libgirderpeach.a $(DESTDIR)$(PREFIX)/lib
	install -m 755 $(LIB)/$(SONAME) $(DESTDIR)$(PREFIX)/lib
	ln -sf $(SONAME) $(DESTDIR)$(PREFIX)/lib/libgirderpeach.so
	install -m 644 $(LIB)/girderpeach.pc $(DESTDIR)$(PREFIX)/lib/pkgconfig
	install -m 755 tools/deliver $(DESTDIR)$(PREFIX)/bin
	rm -rf $(DESTDIR)$(PREFIX)/lib/girderpeach $(LEVELS:%=$(DESTDIR)$(PREFIX)/lib/glibc-hwcaps/%/$(SONAME))
	for level in $(HIGHER); do \
	    [ -f $(COMPILED)/$$level/libgirderpeach.a ] || continue; \
	    install -D -m 755 $(LIB)/glibc-hwcaps/$$level/$(SONAME) $(DESTDIR)$(PREFIX)/lib/glibc-hwcaps/$$level/$(SONAME) && \
	    install -D -m 644 $(LIB)/$$level/libgirderpeach.a $(DESTDIR)$(PREFIX)/lib/girderpeach/$$level/libgirderpeach.a || exit 1; \
	done
	for level in x86-64 $(LEVELS); do \
	    [ -f $(COMPILED)/$$level/deliver ] || continue; \
	    install -D -m 755 $(COMPILED)/$$level/deliver $(DESTDIR)$(PREFIX)/lib/girderpeach/$$level/deliver || exit 1; \
	done

example: target/example/paths

target/example/paths: examples/paths.c include/girderpeach.h $(LIB)/libgirderpeach.a
	@mkdir -p $(@D)
	$(CC) -O2 -Iinclude -o $@ $< $(LIB)/libgirderpeach.a

# The typed fills are called through the libraries that tests/oracle links too.
bench: lib $(foreach name,oracle_xoshiro oracle_philox deliver,$(COMPILED)/$(name).made)
	@RUST_SRC='$(RUST_SRC)' bench/run

clean:
	rm -rf target
