# The maze router: prove and build, run the examples, test, measure, install. `make help` lists the targets.
CC = gcc
CFLAGS = -std=c11 -O2 -Wall -Wextra
ARCHIVE = target/staticlib/libmaze.a
LISTING = target/bin/maze_list
PREFIX = /usr/local
LIBDIR = $(PREFIX)/lib
DESTDIR =

# The header has the version. As long as its first number is 0 the first two are in the name that programs ask for.
VERSION := $(shell sed -nE 's/^.define MAZE_VERSION "([0-9.]+)".*/\1/p' include/maze.h)
SONAME := libmaze.so.$(basename $(VERSION))
SHARED := target/lib/libmaze.so.$(VERSION)

# The calls and functions of the header, each by the manual page that tells of it.
TWINS = make block unblock arm disarm open open_all close trace book judge check_table dimension node_count link_node link_enabled link_circuit receive_armed receive_circuit circuit_receive
PAGE_maze = put_send book_circuit book_at book_hops version $(TWINS) $(TWINS:%=wide_%) book_lookup join widen narrow wide_fold wide_fold_mask wide_axis wide_partner wide_port_exists word_read word_write circuit circuit_node circuit_channel refusal_text command_text word_text
PAGE_maze_arbitrate =
PAGE_maze_receive = receive_start receive_data receive_word receive_overshoot
PAGE_maze_explain = explain_closes explain_repairs wide_explain wide_explain_closes wide_explain_repairs
PAGES = maze maze_arbitrate maze_receive maze_explain
HEADERS = maze.h maze_explain.h
PROGRAMS = maze_list maze_list_checked

.PHONY: all help library program demo test random bench install install-shared install-doc uninstall dist deb built clean
# The targets share what was proved and built.
.NOTPARALLEL:
# A folder may have any name: the recipes read these from the environment.
export PREFIX LIBDIR DESTDIR

# Proves every crate, runs the programs, and builds the library that C links.
all:
	@tools/need rt 'proves the crates'
	rt all test
	@$(MAKE) -s library program

help:
	@echo 'make                  prove every crate, run its programs, build the library for C'
	@echo 'make demo             the examples: the printed list, the console, the map, command words'
	@echo 'make test             the gate: prove everything, run every test'
	@echo 'make library program  the library, or the listing program, alone'
	@echo 'make install          archive, header, maze.pc, maze_list and manual pages, to PREFIX; LIBDIR, DESTDIR'
	@echo 'make install-shared   the shared library beside them'
	@echo 'make install-doc      README, specification, what is proved, change log, examples, the Python module, to share/doc/maze'
	@echo 'make uninstall        takes away what all three install'
	@echo 'make dist             what they install, as target/dist/maze-VERSION-x86_64.tar.gz'
	@echo 'make deb              the same as a Debian package, target/dist/maze_VERSION_amd64.deb'
	@echo 'make bench            the library beside plain C'
	@echo 'make random           a longer comparison with a second router: STREAMS=400'
	@echo 'make clean            removes target/ and what rt keeps in crates/*/out/'
	@echo
	@echo 'PREFIX=$(PREFIX) LIBDIR=$(LIBDIR) CC=$(CC), version $(VERSION). Proving needs rt; what is built runs and is installed without it.'

# The library and the listing program alone. They rest on the sources of their crates: where none has changed since, nothing is done, and where there is no rt
# what was built before is taken.
library:
	@tools/build library $(ARCHIVE)
	@$(MAKE) -s $(SHARED)

program:
	@tools/build program $(LISTING)

built:
	@tools/build library $(ARCHIVE)
	@tools/build program $(LISTING)

# The archive, and the functions of the headers as symbols.
$(SHARED): $(ARCHIVE) tools/shared.c $(HEADERS:%=include/%)
	@tools/need $(CC) 'links the shared library'
	@mkdir -p target/lib && $(CC) $(CFLAGS) -fPIC -Iinclude -shared tools/shared.c -Wl,-soname,$(SONAME) -Wl,-z,relro,-z,now -Wl,--whole-archive $(ARCHIVE) -Wl,--no-whole-archive -o $@

$(ARCHIVE):
	@echo 'there is no $(ARCHIVE): make library builds it' >&2; false

# The main job: the printed list of Examples 10; then the console, which opens the circuit of the patent's figure 7, lists it, and draws the map of links before
# and after it is closed; then what the words of Examples 8 say, and one that carries a code and an error; then a picture of a larger cabinet.
demo: library program
	@tools/need $(CC) 'compiles the examples'
	@mkdir -p target/examples
	@for example in words map_svg; do $(CC) $(CFLAGS) -Iinclude examples/$$example.c $(ARCHIVE) -o target/examples/$$example || exit 1; done
	@$(CC) $(CFLAGS) -Iinclude examples/console.c $(ARCHIVE) $$(tools/line_editing $(CC)) -o target/examples/console
	@$(LISTING) < examples/printed.txt
	@target/examples/console < examples/figure7.txt
	@target/examples/words 2175 2437 3649 3136 2240 2546
	@rm -f target/examples/map.table && target/examples/console target/examples/map.table < examples/map.txt > target/examples/map.answers
	@target/examples/map_svg < target/examples/map.table > target/examples/map.svg
	@echo 'the links of a cabinet of 256 nodes as a picture, for a browser: target/examples/map.svg'

# The gate: its last line is 'N passed, M failed'.
test:
	@for tool in $(CC) g++ nm awk; do tools/need $$tool 'the tests use' || exit 1; done; tools/need rt 'proves the crates' && tests/gate

# A longer comparison with the separately written router: STREAMS streams of calls for each dimension and kind of stream, on narrow tables and on wide ones, and
# STREAMS lists over tables of both.
STREAMS = 400
random: library
	@tools/need $(CC) 'compiles the comparison'
	@mkdir -p target/tests
	@$(CC) $(CFLAGS) -Iinclude tests/random.c tests/reference.c $(ARCHIVE) -o target/tests/random
	@$(CC) $(CFLAGS) -DWIDE -Iinclude tests/random.c tests/reference.c $(ARCHIVE) -o target/tests/random_wide
	@$(CC) $(CFLAGS) -Iinclude tests/store.c tests/reference.c $(ARCHIVE) -o target/tests/store
	target/tests/random $(STREAMS)
	target/tests/random_wide $(STREAMS)
	target/tests/store $(STREAMS)

# The library beside C, portable and with vector instructions, in one run; and the listing program on some 60,000 bytes.
bench: library program
	@tools/need $(CC) 'compiles the benchmark'
	@mkdir -p target/bench
	@$(CC) $(CFLAGS) -Iinclude bench/bench.c bench/baseline.c bench/baseline_sse.c bench/baseline_wide.c bench/baseline_wide_sse.c $(ARCHIVE) -o target/bench/bench
	@target/bench/bench
	@bench/listing

# A folder of maze.pc is absolute, and a space, quote or the like in its name has a backslash before it.
FOLDER = folder() { case $$1 in /*) printf %s "$$1" ;; *) printf %s "$$PWD/$$1" ;; esac | sed -E 's|[^A-Za-z0-9/._+@%:,=~-]|\\&|g; s/[\\&|]/\\&/g'; }

install: built
	@echo "installing maze $(VERSION) in $$DESTDIR$$PREFIX, the library in $$DESTDIR$$LIBDIR" >&2
	@install -d "$$DESTDIR$$PREFIX/bin" "$$DESTDIR$$PREFIX/include" "$$DESTDIR$$LIBDIR/pkgconfig" "$$DESTDIR$$PREFIX/share/man/man1" "$$DESTDIR$$PREFIX/share/man/man3"
	@install -m 644 $(ARCHIVE) "$$DESTDIR$$LIBDIR/libmaze.a"
	@install -m 644 $(HEADERS:%=include/%) "$$DESTDIR$$PREFIX/include"
	@$(FOLDER); sed "s|@PREFIX@|$$(folder "$$PREFIX")|; s|@LIBDIR@|$$(folder "$$LIBDIR")|; s|@VERSION@|$(VERSION)|" maze.pc.in > "$$DESTDIR$$LIBDIR/pkgconfig/maze.pc"
	@install -m 755 $(LISTING) tools/maze_list_checked "$$DESTDIR$$PREFIX/bin"
	@install -m 644 docs/man/maze_list.1 "$$DESTDIR$$PREFIX/share/man/man1"
	@echo '.so man1/maze_list.1' > "$$DESTDIR$$PREFIX/share/man/man1/maze_list_checked.1"
	@install -m 644 $(PAGES:%=docs/man/%.3) "$$DESTDIR$$PREFIX/share/man/man3"
	@$(foreach page,$(PAGES),for call in $(PAGE_$(page)); do echo '.so man3/$(page).3' > "$$DESTDIR$$PREFIX/share/man/man3/maze_$$call.3" || exit 1; done;)

install-shared: built
	@$(MAKE) -s $(SHARED)
	@echo "installing libmaze.so.$(VERSION) in $$DESTDIR$$LIBDIR" >&2
	@install -d "$$DESTDIR$$LIBDIR"
	@install -m 755 $(SHARED) "$$DESTDIR$$LIBDIR"
	@ln -sf libmaze.so.$(VERSION) "$$DESTDIR$$LIBDIR/$(SONAME)"
	@ln -sf $(SONAME) "$$DESTDIR$$LIBDIR/libmaze.so"
	@echo "-lmaze links $(SONAME) from there now, and -l:libmaze.a the archive; a program finds it once ldconfig has run, where its folder is one that ldconfig reads, and else by LD_LIBRARY_PATH or -Wl,-rpath" >&2

# What the README shows and leads to stands where it looks for it.
DOCUMENTS = README.md CHANGELOG.md
DOCS = docs/map.svg docs/SPECIFICATION.md docs/PROVED.md docs/PERFORMANCE.md
install-doc:
	@echo "installing documents and examples in $$DESTDIR$$PREFIX/share/doc/maze" >&2
	@install -d "$$DESTDIR$$PREFIX/share/doc/maze/docs" "$$DESTDIR$$PREFIX/share/doc/maze/examples" "$$DESTDIR$$PREFIX/share/doc/maze/python"
	@install -m 644 $(DOCUMENTS) "$$DESTDIR$$PREFIX/share/doc/maze"
	@install -m 644 $(DOCS) "$$DESTDIR$$PREFIX/share/doc/maze/docs"
	@install -m 644 examples/*.[ch] examples/*.txt "$$DESTDIR$$PREFIX/share/doc/maze/examples"
	@install -m 644 python/*.py python/pyproject.toml "$$DESTDIR$$PREFIX/share/doc/maze/python"

dist: built
	@$(MAKE) -s $(SHARED)
	@tools/dist $(VERSION)

deb: built
	@$(MAKE) -s $(SHARED)
	@tools/deb $(VERSION)

# Takes away the files of this version, and leaves the folders.
uninstall:
	@for file in libmaze.a libmaze.so libmaze.so.$(VERSION) $(SONAME) pkgconfig/maze.pc; do rm -f "$$DESTDIR$$LIBDIR/$$file"; done
	@for file in $(HEADERS:%=include/%) $(PROGRAMS:%=bin/%) $(PROGRAMS:%=share/man/man1/%.1) $(PAGES:%=share/man/man3/%.3) \
	    $(foreach page,$(PAGES),$(PAGE_$(page):%=share/man/man3/maze_%.3)) $(addprefix share/doc/maze/,$(DOCUMENTS) $(DOCS) $(wildcard examples/*.[ch] examples/*.txt python/*.py python/*.toml)); do \
	    rm -f "$$DESTDIR$$PREFIX/$$file"; done

clean:
	rm -rf target crates/*/out
