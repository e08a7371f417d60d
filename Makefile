# make            proves the program and builds it, crates/lvhd/out/lvhd (build.sh)
# make install    copies it to $(DESTDIR)$(PREFIX)/bin; PREFIX is /usr/local unless another is given
PREFIX ?= /usr/local
program := crates/lvhd/out/lvhd

.PHONY: all install
all: $(program)

$(program): crates.txt $(shell find crates -name out -prune -o \( -name '*.rt' -o -name '*.antt' \) -print)
	./build.sh
	touch $@

install: $(program)
	install -d $(DESTDIR)$(PREFIX)/bin
	install $(program) $(DESTDIR)$(PREFIX)/bin/lvhd
