# make look               answers crates/redlog/stdin, or SCRIPT=file, by the code without its proofs
# make                    builds the proved program and leaves it at bin/redlog
# make test               proves everything, and runs the tests and the edits that the proofs must refuse
# make book               writes the book of the proof, linked pages from book/index.html on (Python 3)
# make install PREFIX=..  copies the program, redlog-shell, bash's completion, its manual page, its documents, book and examples, its Vim files and the clients to PREFIX
# make uninstall          takes them away again
# make deb                builds a package of these, which dpkg -i installs

# What make look answers.
SCRIPT ?= crates/redlog/stdin

PREFIX ?= /usr/local
# What is installed as redlog; another one than this was not proved here.
PROGRAM ?= bin/redlog
VERSION ?= 0.1.0
PAGES = $(wildcard docs/*.md)
EXAMPLES = $(wildcard examples/*)
# The clients' files but their tests, and the commands among them.
CLIENTS = $(shell find clients -type f ! -path '*/__pycache__/*' ! -path '*/.*' ! -path '*/tests/*' ! -path 'clients/package/*' ! -name test ! -name testing.py | sort)
COMMANDS = python/redlog-py smtlib/redlog-smt2 batch/redlog-batch
PACKAGE = bin/redlog_$(VERSION)_amd64

.PHONY: all look test book install uninstall deb clean

all: bin/redlog

# The crates that the program stands on, and nothing else. What is proved is kept beside the kit, so make test takes it from there, and this takes what that proved.
bin/redlog: crates.txt HANDLES .ci/program $(shell .ci/program files)
	.ci/program

# The kit's unproved run keeps nothing, and its own lines are shown only where it did not come to an end.
look:
	@echo "Compiling without proofs. This takes some two minutes." >&2
	@said=$$(mktemp); (cd crates/redlog && rt try --seconds 60) < "$(SCRIPT)" 2> $$said; \
	status=$$(sed -n 's/^run=ended status=\([0-9]*\) .*/\1/p' $$said); \
	if [ -z "$$status" ]; then cat $$said >&2; else echo "The script ended with status $$status. Nothing of this was proved: make builds the proved program."; fi; \
	rm -f $$said; [ -n "$$status" ]

test:
	bash .ci/run

book:
	bench/book book

install: $(PROGRAM) book
	install -D -m 755 $(PROGRAM) $(DESTDIR)$(PREFIX)/bin/redlog
	install -D -m 644 man/redlog.1 $(DESTDIR)$(PREFIX)/share/man/man1/redlog.1
	install -d $(DESTDIR)$(PREFIX)/share/doc/redlog/docs $(DESTDIR)$(PREFIX)/share/doc/redlog/examples
	install -m 644 README.md $(DESTDIR)$(PREFIX)/share/doc/redlog
	install -m 644 man/copyright $(DESTDIR)$(PREFIX)/share/doc/redlog
	install -m 644 $(PAGES) $(DESTDIR)$(PREFIX)/share/doc/redlog/docs
	install -m 644 $(EXAMPLES) $(DESTDIR)$(PREFIX)/share/doc/redlog/examples
	install -d $(DESTDIR)$(PREFIX)/bin
	sed 's/@VERSION@/$(VERSION)/' shell/redlog-shell > $(DESTDIR)$(PREFIX)/bin/redlog-shell
	chmod 755 $(DESTDIR)$(PREFIX)/bin/redlog-shell
	install -D -m 644 shell/words $(DESTDIR)$(PREFIX)/share/redlog/words
	install -D -m 644 shell/completion.bash $(DESTDIR)$(PREFIX)/share/bash-completion/completions/redlog
	ln -sf redlog $(DESTDIR)$(PREFIX)/share/bash-completion/completions/redlog-shell
	install -d $(DESTDIR)$(PREFIX)/share/doc/redlog/book
	install -m 644 book/* $(DESTDIR)$(PREFIX)/share/doc/redlog/book
	install -D -m 644 editors/vim/syntax/redlog.vim $(DESTDIR)$(PREFIX)/share/vim/vimfiles/syntax/redlog.vim
	install -D -m 644 editors/vim/ftdetect/redlog.vim $(DESTDIR)$(PREFIX)/share/vim/vimfiles/ftdetect/redlog.vim
	install -D -m 644 clients/why3/redlog.drv $(DESTDIR)$(PREFIX)/share/redlog/why3/redlog.drv
	install -D -m 755 clients/why3/redlog-why3 $(DESTDIR)$(PREFIX)/share/redlog/why3/redlog-why3
	for file in $(CLIENTS); do \
	  if [ -x $$file ]; then mode=755; else mode=644; fi; \
	  install -D -m $$mode $$file $(DESTDIR)$(PREFIX)/share/redlog/$$file || exit 1; \
	done
	for file in $(COMMANDS); do ln -sf ../share/redlog/clients/$$file $(DESTDIR)$(PREFIX)/bin/$${file##*/} || exit 1; done

uninstall:
	rm -f $(DESTDIR)$(PREFIX)/bin/redlog $(DESTDIR)$(PREFIX)/bin/redlog-shell $(DESTDIR)$(PREFIX)/share/man/man1/redlog.1
	rm -f $(addprefix $(DESTDIR)$(PREFIX)/share/bash-completion/completions/,redlog redlog-shell)
	rm -f $(foreach file,$(COMMANDS),$(DESTDIR)$(PREFIX)/bin/$(notdir $(file)))
	rm -rf $(DESTDIR)$(PREFIX)/share/doc/redlog $(DESTDIR)$(PREFIX)/share/redlog
	rm -f $(DESTDIR)$(PREFIX)/share/vim/vimfiles/syntax/redlog.vim $(DESTDIR)$(PREFIX)/share/vim/vimfiles/ftdetect/redlog.vim

deb: $(PROGRAM)
	rm -rf $(PACKAGE)
	$(MAKE) install PREFIX=/usr DESTDIR=$(abspath $(PACKAGE))
	gzip -9n $(PACKAGE)/usr/share/man/man1/redlog.1
	install -d $(PACKAGE)/DEBIAN
	sed 's/@VERSION@/$(VERSION)/' man/control > $(PACKAGE)/DEBIAN/control
	dpkg-deb --root-owner-group --build $(PACKAGE) $(PACKAGE).deb

clean:
	rm -rf bin book crates/*/out
