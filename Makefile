# Builds, checks and installs goref. PREFIX, DESTDIR and PYTHON reach packaging/install by the environment.

.PHONY: all install uninstall check clean trim help

all:
	@./goref --version
	@bindings/build

install:
	@packaging/install

uninstall:
	@packaging/install --remove

check:
	@checks/all --proofs

clean:
	@packaging/clear

trim:
	@packaging/clear --trim

help:
	@echo 'make            prove and build the program and the library, where that is not done'
	@echo 'make install    install both, goref-tools, manual pages and completions: PREFIX=/usr/local DESTDIR= PYTHON='
	@echo 'make uninstall  remove what was installed, by the same PREFIX and DESTDIR'
	@echo 'make check      prove and try everything, for hours'
	@echo 'make trim       delete what proving left, some gigabytes, and keep the program and the library'
	@echo 'make clean      delete all that was built'
