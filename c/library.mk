# How the library for C becomes a shared object, and how it is installed. c/Makefile includes this for the proved library,
# and Makefile for the one without proofs. Each sets `top`, the folder of the project, `built`, the folder of libuda50.a,
# and `how`, how that was built.
PREFIX ?= /usr/local
DESTDIR ?=

headers := $(addprefix $(top)/include/,uda50.h uda50_file.h uda50_machine.h uda50_steps.h)
version := $(shell sed -n 's/^.define UDA50_VERSION_[A-Z]* \([0-9]*\)$$/\1/p' $(top)/include/uda50.h | paste -sd.)
soname := libuda50.so.$(firstword $(subst ., ,$(version)))
shared := libuda50.so.$(version)
to = $(DESTDIR)$(PREFIX)

# The archive's objects as a shared object. It is an error if one of them isn't position-independent.
$(built)/$(shared): $(built)/libuda50.a $(top)/c/uda50.map
	$(CC) $(LDFLAGS) -shared -o $@ -Wl,-soname,$(soname) -Wl,--version-script=$(top)/c/uda50.map -Wl,-z,defs -Wl,-z,text \
		-Wl,--whole-archive $(built)/libuda50.a -Wl,--no-whole-archive

# Written at each install, since PREFIX may be another.
$(built)/uda50.pc: $(built)/libuda50.a FORCE
	printf '%s\n' 'prefix=$(PREFIX)' 'includedir=$${prefix}/include' 'libdir=$${prefix}/lib' '' \
		'Name: uda50' 'Description: a UDA50 disk controller, $(how)' 'Version: $(version)' \
		'Cflags: -I$${includedir}' 'Libs: -L$${libdir} -luda50' > $@

install-library: $(built)/libuda50.a $(built)/$(shared) $(built)/uda50.pc
	install -d $(to)/include $(to)/lib/pkgconfig
	install -m 644 $(headers) $(to)/include
	install -m 644 $(built)/libuda50.a $(to)/lib
	install -m 755 $(built)/$(shared) $(to)/lib
	ln -sf $(shared) $(to)/lib/$(soname)
	ln -sf $(soname) $(to)/lib/libuda50.so
	install -m 644 $(built)/uda50.pc $(to)/lib/pkgconfig
	@echo 'libuda50 $(version), $(how), is installed below $(to)'

FORCE:

.PHONY: install-library FORCE
