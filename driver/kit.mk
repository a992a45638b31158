# Makes what Makefile names. Run it by that, which lets nothing else build in the checkout meanwhile.

PREFIX ?= /usr/local
BINDIR ?= $(PREFIX)/bin
INCLUDEDIR ?= $(PREFIX)/include
LIBDIR ?= $(PREFIX)/lib
DATADIR ?= $(PREFIX)/share
MANDIR ?= $(DATADIR)/man

NM ?= nm
CFLAGS ?= -O2 -g
WARNINGS ?= -Wall -Wextra -Werror -Wconversion -Wshadow -Wstrict-prototypes -pedantic
SANITIZERS ?= -fsanitize=address,undefined -fno-sanitize-recover=all
COMPILE = $(CC) -std=c11 -D_POSIX_C_SOURCE=200809L $(WARNINGS) -I. -Icommon -Ifront -MMD -MP $(CPPFLAGS) $(CFLAGS)

LIBRARY := build/libstaffripple.a
ARCHIVES := stores frame prepared counters reader run text

# The programs and their objects.
PROGRAMS := staffripple trill-replay
TESTS := selftest refusals textform walk
common := $(patsubst %.c,%.o,$(wildcard common/*.c))
staffripple := $(patsubst %.c,%.o,$(filter-out front/unproved.c,$(wildcard front/*.c))) $(common)
trill-replay := $(patsubst %.c,%.o,$(wildcard replay/*.c)) $(common)
selftest := tests/selftest.o
refusals := tests/refusals.o $(common)
textform := tests/textform.o $(common)
walk := tests/walk.o front/walk.o $(common)

.DELETE_ON_ERROR:
.SUFFIXES:
.SECONDARY:
.SECONDEXPANSION:
.PHONY: all test install uninstall clean FORCE

all: $(LIBRARY) $(PROGRAMS:%=build/%)

# ---- The proved archives, and the library made of them ----

# rt proves what it builds. What is unchanged is not proved again: build/libNAME.sum is the sum of the sources that build/libNAME.a was
# proved from. The sources' times do not matter, since a checkout changes them, nor what rt keeps in out/. An archive is of the crate
# NAME, or of NAME_c where other crates use NAME.
crates = $(sort $(1) $(foreach below,$(shell sed -nE 's/^$(1)( staticlib)?://p' ../crates.txt),$(call crates,$(below))))
below = $(sort $(call crates,$(1)) $(call crates,$(1)_c))
sources = find ../crates.txt $(wildcard $(addprefix ../crates/,$(below))) \( -name must-fail -o -name out \) -prune -o -type f -print
sum = $(shell $(sources) | LC_ALL=C sort | xargs sha256sum | sha256sum)

# One proof at a time, each archive after the one before: they prove the crates below in the same folder.
define archive
sum_$(1) := $$(call sum,$(1))
ifneq ($$(wildcard build/lib$(1).a) $$(shell cat build/lib$(1).sum 2>&1),build/lib$(1).a $$(sum_$(1)))
build/lib$(1).a: FORCE
endif
build/lib$(1).a: | $(before)
before := build/lib$(1).a
endef
$(foreach name,$(ARCHIVES),$(eval $(call archive,$(name))))

build/lib%.a:
	@mkdir -p build
	@rm -f build/lib$*.sum
	./prove $*
	@echo '$(sum_$*)' > build/lib$*.sum

# Whoever reads the library or a program while it is made anew finds the old one or the new one, and no part of one.
$(LIBRARY): $(ARCHIVES:%=build/lib%.a)
	@rm -f $@.new
	printf 'create $@.new\n$(^:%=addlib %\n)save\nend\n' | $(AR) -M
	@twice=$$($(NM) -g -P $@.new | awk '$$2 ~ /^[A-TV-Z]$$/ { print $$1 }' | sort | uniq -d); \
	if [ -n "$$twice" ]; then echo "$@: defined twice: $$twice" >&2; exit 1; fi
	@mv $@.new $@

# ---- The programs, plain and with sanitizers ----

build/plain/%.o: %.c
	@mkdir -p $(@D)
	$(COMPILE) -c -o $@ $<

build/sanitized/%.o: %.c
	@mkdir -p $(@D)
	$(COMPILE) $(SANITIZERS) -c -o $@ $<

LINK = $(CC) $(CFLAGS) $(LDFLAGS) -o $@.new $^ -lm && mv $@.new $@

$(addprefix build/,$(PROGRAMS) $(TESTS)): build/%: $$(addprefix build/plain/,$$($$*)) $(LIBRARY)
	$(LINK)

$(addprefix build/sanitized/,$(PROGRAMS) $(TESTS)): LDFLAGS += $(SANITIZERS)
build/selftest build/sanitized/selftest: LDFLAGS += -pthread
$(addprefix build/sanitized/,$(PROGRAMS) $(TESTS)): build/sanitized/%: $$(addprefix build/sanitized/,$$($$*)) $(LIBRARY)
	$(LINK)

-include $(wildcard $(foreach kind,plain sanitized,build/$(kind)/*/*.d))

# ---- Test, install, clean ----

FOLDERS = PREFIX='$(PREFIX)' BINDIR='$(BINDIR)' INCLUDEDIR='$(INCLUDEDIR)' LIBDIR='$(LIBDIR)' DATADIR='$(DATADIR)' \
	MANDIR='$(MANDIR)' DESTDIR='$(DESTDIR)'

test: all $(TESTS:%=build/%) $(addprefix build/sanitized/,$(PROGRAMS) $(TESTS))
	@CC='$(CC)' CXX='$(CXX)' sh tests/run.sh build

install: all
	@$(FOLDERS) sh install.sh put

uninstall:
	@$(FOLDERS) sh install.sh drop

clean:
	rm -rf build
