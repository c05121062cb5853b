# make test   prove everything from nothing, then the tests from outside
# make wrong NAME=..      the wrong programs of a crate; of all crates without NAME
# make lib    the static library for C hosts, target/libgateway.a
# make bench  speed beside plain C at -O3
# make fuzz SECONDS=..    the comparison with an independent implementation, on random inputs for so long
# make floats setpoints_to_bytes on every f32 beside that implementation: some minutes, and no part of make test
# make demo   the example gateway, examples/gateway.c, over two pseudo-terminals
# make door   the login door of a controller, examples/door.c: a rehearsal over a pseudo-terminal
# make run    the listing of a capture: make run < FILE; of samples/line.capture where standard input is a terminal
# make mend   a frame with one flipped bit, mended: make mend < FILE; samples/damaged.capture where standard input is a terminal
# make install PREFIX=..  the programs capture and mend, the library, its header and a pkg-config file
CC = gcc
CXX = g++
CFLAGS = -std=c11 -O2 -Wall -Wextra -Werror -Iinclude
PREFIX = /usr/local
LIB = target/libgateway.a
CAPTURE = target/bin/capture
MEND = target/bin/mend
TESTS = $(patsubst tests/c/%.c,target/tests/%,$(wildcard tests/c/*.c))
BENCHES = $(patsubst bench/%.c,target/bench/%,$(filter-out bench/stack.c,$(wildcard bench/*.c)) bench/stack.c)

.PHONY: test wrong lib bench ctest outside fuzz floats demo door run mend install clean

test:
	@tests/run

wrong:
	@tests/wrong $(NAME)

lib: $(LIB)

$(LIB): crates.txt $(shell find crates -name '*.rt' -o -name '*.antt')
	@mkdir -p target
	@(cd crates/host_c && rt lib) > target/staticlib.log 2>&1 || { cat target/staticlib.log; exit 1; }
	@cp crates/host_c/out/libhost_c.a $@

ctest: $(TESTS)

target/tests/%: tests/c/%.c $(wildcard tests/c/*.h) include/gateway.h $(LIB)
	@mkdir -p $(@D)
	$(CC) $(CFLAGS) -o $@ $< $(LIB)

target/tests/boost: tests/boost.cc include/gateway.h $(LIB)
	@mkdir -p $(@D)
	$(CXX) -std=c++17 -O2 -Wall -Wextra -Werror -Iinclude -o $@ $< $(LIB)

target/tests/rollover target/tests/readings: target/tests/%: tests/%.c examples/gateway.c include/gateway.h $(LIB)
	@mkdir -p $(@D)
	$(CC) $(CFLAGS) -o $@ $< $(LIB)

target/tests/practice: tests/practice.c examples/door.c include/gateway.h $(LIB)
	@mkdir -p $(@D)
	$(CC) $(CFLAGS) -o $@ $< $(LIB)

OUTSIDE = CARGO_TARGET_DIR=target/rust cargo run -q --release --offline --manifest-path tests/rust/Cargo.toml --

outside: $(LIB)
	@$(OUTSIDE)

SECONDS = 60

fuzz: $(LIB)
	@$(OUTSIDE) --seconds $(SECONDS)

floats: $(LIB)
	@$(OUTSIDE) --all-floats

target/bench/%: bench/%.c $(wildcard bench/*.h) include/gateway.h $(LIB)
	@mkdir -p $(@D)
	$(CC) $(CFLAGS) -O3 -o $@ $< $(LIB) -lpthread

bench: $(BENCHES)
	@bench/run $(BENCHES)

target/examples/%: examples/%.c include/gateway.h $(LIB)
	@mkdir -p $(@D)
	$(CC) $(CFLAGS) -o $@ $< $(LIB)

demo: target/examples/gateway
	@target/examples/gateway

door: target/examples/door
	@target/examples/door

$(CAPTURE) $(MEND): target/bin/%: crates.txt $(shell find crates -name '*.rt' -o -name '*.antt')
	@(cd crates/$* && rt run) > /dev/null < /dev/null
	@install -D crates/$*/out/$* $@

run: $(CAPTURE)
	@if [ -t 0 ]; then $(CAPTURE) <samples/line.capture; else $(CAPTURE); fi

mend: $(MEND)
	@if [ -t 0 ]; then $(MEND) <samples/damaged.capture; else $(MEND); fi

install: $(CAPTURE) $(MEND) $(LIB)
	install -D -m 755 $(CAPTURE) $(DESTDIR)$(PREFIX)/bin/capture
	install -D -m 755 $(MEND) $(DESTDIR)$(PREFIX)/bin/mend
	install -D -m 644 $(LIB) $(DESTDIR)$(PREFIX)/lib/libgateway.a
	install -D -m 644 include/gateway.h $(DESTDIR)$(PREFIX)/include/gateway.h
	install -d $(DESTDIR)$(PREFIX)/lib/pkgconfig
	sed 's|@PREFIX@|$(abspath $(PREFIX))|' include/gateway.pc.in >$(DESTDIR)$(PREFIX)/lib/pkgconfig/gateway.pc

clean:
	rm -rf target
