# make          proves, compiles and links the program: build/zcld
# make try      links and runs the monitor, or OBJECTS, with a program that isn't proved, in a minute or two
# make example  links a monitor of several C files as it is and makes it smaller, shows the start of its code and its sizes, and
#               gives its commands to both images and to the objects; and makes examples/exit3.o smaller, shows that, and runs it
# make check    runs the gate: every proof, must-fail edit, test and program, and then the program that this built over real
#               files, looks at the lines of further planted bugs, looks up the documents' names, and counts what the
#               headline stands on
# make install  installs the program below $(DESTDIR)$(PREFIX)/bin
# make clean    removes what these made

RT ?= rt
export RT
PREFIX ?= /usr/local
OBJDUMP ?= riscv64-unknown-elf-objdump
EXAMPLE := $(CURDIR)/examples/exit3.o
MONITOR := $(sort $(wildcard examples/firmware/gcc/*.o examples/monitor/gcc/*.o))
SOURCES := crates.txt $(shell find crates -path '*/out' -prune -o -type f \( -name '*.rt' -o -name '*.antt' \) -print)

.PHONY: all try example check install clean

all: build/zcld

# The libraries below the program are proved first, several at once. A program is built by running it once: here it links the
# example.
build/zcld: $(SOURCES)
	mkdir -p build
	scripts/prove_libraries
	cd crates/zcld_program && $(RT) run -- zc --out $(CURDIR)/build/exit3.elf --cert $(CURDIR)/build/exit3.cert $(EXAMPLE)
	install -m 755 crates/zcld_program/out/zcld_program build/zcld

try:
	scripts/try_unproved $(OBJECTS)

example: build/zcld
	@echo "a monitor of several C files, linked as it is, and made smaller:"
	build/zcld plain --out build/monitor.plain $(MONITOR)
	build/zcld zc --out build/monitor.elf --cert build/monitor.cert $(MONITOR)
	@if command -v $(OBJDUMP) > /dev/null; then $(OBJDUMP) -h build/monitor.elf; $(OBJDUMP) -d build/monitor.elf | sed -n 1,24p; fi
	@echo "both images do these commands, and so do the objects; each ends with status 2:"
	cat examples/monitor/input
	build/zcld run build/monitor.elf < examples/monitor/input > build/monitor.out; status=$$?; cat build/monitor.out; test $$status -eq 2
	build/zcld run build/monitor.plain < examples/monitor/input > build/monitor.plain.out; test $$? -eq 2
	build/zcld trace $(MONITOR) < examples/monitor/input > build/monitor.traced; test $$? -eq 2
	cmp build/monitor.out examples/monitor/output
	cmp build/monitor.plain.out examples/monitor/output
	cmp build/monitor.traced examples/monitor/output
	@echo "examples/exit3.o, made smaller, with the certificate of its jump table:"
	build/zcld zc --out build/exit3.elf --cert build/exit3.cert $(EXAMPLE)
	@cat build/exit3.cert
	@if command -v $(OBJDUMP) > /dev/null; then $(OBJDUMP) -d $(EXAMPLE) build/exit3.elf; else od -A d -t x1 -j 116 -N 10 build/exit3.elf; fi
	@echo "the image runs, and the object; each must end with status 3:"
	build/zcld run build/exit3.elf < /dev/null; status=$$?; echo "status $$status"; test $$status -eq 3
	build/zcld trace $(EXAMPLE) < /dev/null; status=$$?; echo "status $$status"; test $$status -eq 3

check:
	RT_JOBS=$$(scripts/gate_jobs) $(RT) ci
	python3 scripts/check_program crates/zcld_program/out/zcld_program
	python3 scripts/try_must_fail --lines
	python3 scripts/check_documents
	python3 scripts/count_definitions --check

install: build/zcld
	install -d $(DESTDIR)$(PREFIX)/bin
	install -m 755 build/zcld $(DESTDIR)$(PREFIX)/bin/zcld

clean:
	rm -rf build
