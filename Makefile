# `make` proves every crate and builds what is installed: the program that ./vmtirows runs, and the library for C. `make test` is
# the gate; `make bench` times the C calls, and `make counts` counts their instructions; `make examples` builds the C programs that
# examples/two_columns, examples/add_value and examples/add_target run. `make install` and `make uninstall` heed PREFIX and DESTDIR.

.PHONY: all proofs test bench counts examples install uninstall clean
# two runs of rt would wait for each other
.NOTPARALLEL:

PREFIX = /usr/local
to = $(DESTDIR)$(abspath $(PREFIX))
version = $(shell sed -n 's/^.define VMTI_VERSION "\(.*\)"$$/\1/p' include/vmti.h)
files = bin/vmtirows include/vmti.h lib/libvmti.a lib/pkgconfig/vmti.pc libexec/vmtirows \
	share/man/man1/vmtirows.1 share/man/man3/vmti.3
program = crates/vmtirows/out/vmtirows
archive = crates/vmti/out/libvmti.a
code := $(shell find crates crates.txt -path '*/out' -prune -o -type f -print)

all: proofs $(archive) $(program)

proofs:
	rt all check

$(archive): $(code)
	cd crates/vmti && rt lib

# rt builds a program where it runs it, and these end where nothing is read; that one is there says that it was built
$(program) crates/vmtiask/out/vmtiask: $(code)
	rm -f $@
	cd $(@D)/.. && rt run < /dev/null > /dev/null || test -x out/$(@F)

# A program that does not run by itself on this machine is installed below ./vmtirows, which runs it under the kit.
install: $(archive) $(program)
	install -D -m 644 $(archive) "$(to)/lib/libvmti.a"
	install -D -m 644 include/vmti.h "$(to)/include/vmti.h"
	sed 's|@PREFIX@|$(abspath $(PREFIX))|; s|@VERSION@|$(version)|' include/vmti.pc.in \
	| install -D -m 644 /dev/stdin "$(to)/lib/pkgconfig/vmti.pc"
	install -D -m 644 docs/vmtirows.1 "$(to)/share/man/man1/vmtirows.1"
	install -D -m 644 docs/vmti.3 "$(to)/share/man/man3/vmti.3"
	if $(program) < /dev/null > /dev/null 2>&1; then install -D $(program) "$(to)/bin/vmtirows"; \
	else install -D $(program) "$(to)/libexec/vmtirows" && install -D vmtirows "$(to)/bin/vmtirows"; fi

uninstall:
	rm -f $(files:%="$(to)/%")

test:
	@tests/run

bench:
	@tests/bench

counts:
	@tests/counts

examples:
	@examples/build

clean:
	rm -rf target tests/*/target crates/*/out
