# What a user, an engineer and an auditor run.
.PHONY: session replay library install test hostile bench gate
CALLS ?= 10000000
SEED ?= 1
PREFIX ?= /usr/local

# Proves what the session needs, runs 01's session and prints its table.
session:
	@mkdir -p target/log
	cd crates/session && rt run >../../target/log/session.stdout
	@cat target/log/session.stdout
	@cmp crates/session/stdout target/log/session.stdout

# The program that replays a log: target/bin/replay. It is proved and built, and replays the session's log as it has to.
replay:
	@mkdir -p target/log target/bin
	cd crates/replay && rt run -- data/session.log >../../target/log/replay.stdout
	@cmp crates/replay/stdout target/log/replay.stdout
	@install crates/replay/out/replay target/bin/replay
	@echo 'target/bin/replay LOG'

# The static library, proved: target/lib/liboaledva.a. The toolchain writes an archive for each crate that exports: user access,
# lists of it and the other calls, for a cache with one place for each line and for one with sets of four; logs; and the checker and the
# repair of dumped boards. Their pieces go into one, each as it is, for any x86-64. On another processor than that, AR names an ar for
# x86-64.
PIECES = oaledva oaledva_user oaledva_list oaledva_sets oaledva_sets_user oaledva_sets_list oaledva_log_c oaledva_dump
library:
	set -e; for piece in $(PIECES); do (cd crates/$$piece && rt lib --cpu x86-64); done
	@mkdir -p target/lib
	@rm -f target/lib/liboaledva.a
	@printf '%s\n' 'create target/lib/liboaledva.a' $(foreach piece,$(PIECES),'addlib crates/$(piece)/out/lib$(piece).a') save end | $(AR) -M
	@echo 'target/lib/liboaledva.a has every call'

# Header, library and a file for pkg-config, below PREFIX (and that below DESTDIR, if it is set).
install: library
	@set -e; prefix=$$(realpath -ms '$(PREFIX)'); to='$(DESTDIR)'$$prefix; \
	version=$$(sed -n 's/^version = "\(.*\)"/\1/p' rust/Cargo.toml); \
	{ echo "prefix=$$prefix"; sed "s/@VERSION@/$$version/" include/oaledva.pc.in; } >target/lib/oaledva.pc; \
	install -d "$$to/include" "$$to/lib/pkgconfig"; \
	install -m 644 include/oaledva.h "$$to/include"; \
	install -m 644 target/lib/liboaledva.a "$$to/lib"; \
	install -m 644 target/lib/oaledva.pc "$$to/lib/pkgconfig"; \
	echo "$$to has header, library and pkg-config's file"

# The library tried from C and from Rust, as the gate does.
test:
	tests/run

# A longer hostile run: make hostile CALLS=10000000 SEED=7
hostile:
	tests/run hostile --calls $(CALLS) --seed $(SEED)

# A million user accesses by the library and by ordinary Rust, compared and timed; then logs of as many, read and replayed; then dumps
# of growing boards, checked and repaired: some minutes, on a machine that rests.
bench: library
	bench/accesses/run
	bench/logs/run
	bench/dumps/run

# The gate: everything from nothing.
gate:
	.ci/run
