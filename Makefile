# `make run` and `make test` are all that a fresh machine with the Rattle kit, a C compiler and cargo needs.
.PHONY: help run test library lib install uninstall compare bench fuzz archives fmt
# `rt` runs its checks side by side itself; two of it at once would prove the same crates twice.
.NOTPARALLEL:

CC ?= cc
CXX ?= c++
CFLAGS = -std=c11 -Wall -Wextra -Wconversion -Wsign-conversion -Werror -pedantic -O2
SOURCES = crates.txt $(shell find crates -name out -prune -o \( -name '*.rt' -o -name '*.antt' \) -print)
PROVED = target/libc_api_c.a
LIBRARY = target/lib/libsubmission_book.a
SONAME = libsubmission_book.so.0
SHARED = target/lib/$(SONAME)
VERSION = $(shell sed -n 's/^\#define SUBMISSION_BOOK_VERSION_STRING "\(.*\)"/\1/p' include/submission_book.h)
PREFIX ?= /usr/local
PUBLIC = submission_book.h submission_book_answers.h
EXAMPLE = examples/c/kitchen.c examples/c/account.c examples/c/coins.c
CALLS = $(addprefix tests/c_api/, calls.c answers.c buffers.c sizes.c looks.c digests.c sha256.c)
SAMPLE = tests/c_api/sample.c examples/c/coins.c
INCLUDE = -I include -I examples/c -I tests/c_api
HEADERS = $(addprefix include/, $(PUBLIC)) $(wildcard examples/c/*.h tests/c_api/*.h)

help:
	@echo "make run       play a sample kitchen through the library, write its archive and show it"
	@echo "make test      the gate: every proof, must-fail edit and program, the Rust comparison, the library's own tests (.ci/run)"
	@echo "make lib       target/lib: libsubmission_book.a, proved as it is built, the same as a shared library, and the headers"
	@echo "make install   library, headers, pkg-config file and show_archive below PREFIX=/usr/local (DESTDIR= in front of it); make uninstall"
	@echo "make library   the library's tests alone: C, C++, stack, sanitizers, the Rust crate, archives shown and decoded, installing"
	@echo "make compare   call scripts, played by the driver and by the Rust (N=6000 SEED=1: so many, of this seed)"
	@echo "make bench     every call, archives and SHA-256 against Rust, in one run (OLD=libc_api_c.a: every call against that build of the library)"
	@echo "make fuzz      ten minutes of coverage-guided fuzzing of the C boundary (SECONDS=30 for less), after building it for that"
	@echo "make archives  damaged archives, read here and by the Rust side's decoder"
	@echo "make fmt       the layout of every source, specification and proof"

# The first run proves what it links, which takes long; later ones take a second.
run: lib target/bin/show_archive target/kitchen
	@target/kitchen target/kitchen.archive
	@echo
	@target/bin/show_archive target/kitchen.archive
	@sed 's|@LIBEXEC@|target/bin|' tools/show_archive.in >target/show_archive
	@sh target/show_archive --html target/kitchen.archive >target/kitchen.html
	@echo
	@echo "The same as a page to print: target/kitchen.html"

test:
	@.ci/run

lib: $(LIBRARY) $(SHARED) $(addprefix target/lib/, $(PUBLIC))

# Programs that are asked for as well are proved in one go with what the library needs.
PROGRAMS =
run install: PROGRAMS = show_archive
library: PROGRAMS = show_archive tool_book_driver

# The proved part: the exports, over all that they call.
$(PROVED): $(SOURCES)
	@tools/prove --library c_api_c $(PROGRAMS)
	@touch $@

# The proved part, and readers and builders in C beside it.
$(LIBRARY): $(PROVED) lib/submission_book_answers.c $(addprefix include/, $(PUBLIC))
	@mkdir -p target/lib
	@$(CC) $(CFLAGS) -fPIC -I include -c lib/submission_book_answers.c -o target/submission_book_answers.o
	@cp $(PROVED) $@.new
	@$(AR) rs $@.new target/submission_book_answers.o
	@mv $@.new $@

# The compiler's code is position independent, so the static library is a shared one when it is linked.
$(SHARED): $(LIBRARY)
	@$(CC) -shared -Wl,-soname,$(SONAME),-z,defs,-z,noexecstack,--whole-archive $(LIBRARY) -Wl,--no-whole-archive -o $@
	@ln -sf $(SONAME) target/lib/libsubmission_book.so

$(addprefix target/lib/, $(PUBLIC)): target/lib/%: include/%
	@mkdir -p target/lib
	@cp $< $@

target/bin/show_archive target/bin/tool_book_driver: $(SOURCES)
	@tools/prove $(@F)
	@touch $@

# What is installed, below DESTDIR and PREFIX.
PLACE = $(DESTDIR)$(abspath $(PREFIX))
INSTALLED = lib/libsubmission_book.a lib/$(SONAME) lib/libsubmission_book.so lib/pkgconfig/submission_book.pc $(addprefix include/, $(PUBLIC)) \
	bin/show_archive libexec/submission_book/show_archive $(addprefix share/doc/submission_book/, ARCHIVE.md NOTICE)

install: lib target/bin/show_archive
	@mkdir -p $(addprefix $(PLACE)/, $(sort $(dir $(INSTALLED))))
	@install -m 644 $(LIBRARY) $(SHARED) $(PLACE)/lib/
	@ln -sf $(SONAME) $(PLACE)/lib/libsubmission_book.so
	@sed -e 's|@PREFIX@|$(abspath $(PREFIX))|' -e 's|@VERSION@|$(VERSION)|' tools/submission_book.pc.in >$(PLACE)/lib/pkgconfig/submission_book.pc
	@install -m 644 $(addprefix include/, $(PUBLIC)) $(PLACE)/include/
	@install -m 755 target/bin/show_archive $(PLACE)/libexec/submission_book/
	@sed -e 's|@LIBEXEC@|$(abspath $(PREFIX))/libexec/submission_book|' tools/show_archive.in >$(PLACE)/bin/show_archive
	@chmod 755 $(PLACE)/bin/show_archive
	@install -m 644 docs/ARCHIVE.md NOTICE $(PLACE)/share/doc/submission_book/
	@echo "installed below $(PLACE): $(INSTALLED)"

uninstall:
	@rm -f $(addprefix $(PLACE)/, $(INSTALLED))
	@rmdir $(PLACE)/share/doc/submission_book $(PLACE)/libexec/submission_book 2>/dev/null || true

target/first: examples/first.c $(LIBRARY) $(addprefix target/lib/, $(PUBLIC))
	$(CC) $(CFLAGS) -I target/lib examples/first.c $(LIBRARY) -o $@

target/kitchen: $(EXAMPLE) $(HEADERS) $(LIBRARY)
	$(CC) $(CFLAGS) $(INCLUDE) $(EXAMPLE) $(LIBRARY) -o $@

target/c_api_calls: $(CALLS) $(SAMPLE) $(HEADERS) $(LIBRARY)
	$(CC) $(CFLAGS) $(INCLUDE) $(CALLS) $(SAMPLE) $(LIBRARY) -pthread -o $@

target/c_api_stack: tests/c_api/stack.c $(SAMPLE) $(HEADERS) $(LIBRARY)
	$(CC) $(CFLAGS) $(INCLUDE) tests/c_api/stack.c $(SAMPLE) $(LIBRARY) -pthread -o $@

# The library as its users have it: the sample kitchen, all functions from C and C++, the stack that they take, sanitizers, the Rust
# crate, archives shown as text and decoded in Python, and installing.
library: lib target/first target/kitchen target/c_api_calls target/c_api_stack target/bin/show_archive target/bin/tool_book_driver
	target/first
	target/kitchen target/kitchen.archive >target/kitchen.txt
	target/c_api_calls
	target/c_api_stack >target/c_api_stack.txt
	tests/c_api/headers.sh
	examples/c/sanitize.sh
	bindings/rust/check.sh
	tests/show_archive/run.sh
	@if command -v python3 >/dev/null; then python3 tests/archive_decoder/run.py; else echo "There is no python3 here: the archive decoder was not run."; fi
	tests/install/run.sh

# The driver against the Rust on N seeded scripts of about 20 calls each.
N ?= 6000
SEED ?= 1
compare: target/bin/tool_book_driver
	@tests/oracle/check "$(CURDIR)/target/bin/tool_book_driver" $(SEED) $(N)

bench: $(LIBRARY)
	@bench/run.sh $(OLD)

SECONDS ?= 600
fuzz:
	@fuzz/run.sh $(SECONDS)

archives: target/bin/tool_book_driver
	@cd tests/oracle && cargo build --release --offline
	@tests/oracle/target/release/oracle archives --driver target/bin/tool_book_driver --seed 1 --archives 5

fmt:
	@for crate in crates/*/; do (cd "$$crate" && rt fmt) || exit 1; done
