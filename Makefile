PREFIX ?= /usr/local
SIX = examples/six-bytes/six

.PHONY: all try test edits install uninstall clean

all: galcert
	@echo "== the six-byte example: its verdict with a certificate, the certificate's, and a run of three events"
	./galcert check $(SIX).rom $(SIX).toml --cert six.cert
	./galcert verify $(SIX).rom six.cert
	./galcert run $(SIX).rom six.cert $(SIX).input 3

# prove.py proves what the program stands on, side by side. Then it builds the program and runs it once.
galcert: crates.txt $(shell find crates -name '*.rt' -o -name '*.antt' | grep -v /out/)
	@echo "== proving what galcert stands on, and building it; the first time takes an hour or more"
	tools/prove.py galcert verify ../../$(SIX).rom ../../$(SIX).cert
	cp crates/galcert/out/galcert galcert

# The verdict of the six-byte example before any proof, after minutes. This proves nothing.
try:
	cd crates/galcert && ../../tools/rt try --data six.rom=../../$(SIX).rom --data six.toml=../../$(SIX).toml \
		-- check six.rom six.toml

# The gate. First the scripts that take seconds: the trusted definitions stand where their heads say, and each name stands
# for one thing. Then `rt ci`: every proof from nothing, the edits that the prover must refuse, the tests and the stored
# run. tools/rt runs it, since some kits sum the files of a crate once for each path down to it, which takes hours here.
# Last the program that the gate built, over files: by two scripts, by the cases of tests/cases/, and by the transcripts of
# the pages.
test:
	tools/trusted.py > /dev/null
	tools/names.py
	@bash -c "TIMEFORMAT='rt ci took %lR, with %lU and %lS of processor time'; time tools/rt ci"
	tools/program.sh crates/galcert/out/galcert
	tools/naming.sh crates/galcert/out/galcert
	tools/cases.py crates/galcert/out/galcert
	tools/transcripts.py crates/galcert/out/galcert

# The edits that the gate leaves out. The prover must refuse these too. CRATES="a b" tries those of some crates.
edits:
	tools/edits.sh $(CRATES)

install: galcert
	install -D -m 755 galcert $(DESTDIR)$(PREFIX)/bin/galcert
	install -D -m 644 share/galcert.1 $(DESTDIR)$(PREFIX)/share/man/man1/galcert.1
	install -D -m 644 share/galcert.bash $(DESTDIR)$(PREFIX)/share/bash-completion/completions/galcert
	install -D -m 644 share/_galcert $(DESTDIR)$(PREFIX)/share/zsh/site-functions/_galcert
	install -D -m 644 share/galcert.fish $(DESTDIR)$(PREFIX)/share/fish/vendor_completions.d/galcert.fish
	install -d $(DESTDIR)$(PREFIX)/share/doc/galcert/docs
	install -m 644 README.md $(DESTDIR)$(PREFIX)/share/doc/galcert
	install -m 644 docs/*.md docs/*.png $(DESTDIR)$(PREFIX)/share/doc/galcert/docs

uninstall:
	rm -f $(DESTDIR)$(PREFIX)/bin/galcert $(DESTDIR)$(PREFIX)/share/man/man1/galcert.1
	rm -f $(DESTDIR)$(PREFIX)/share/bash-completion/completions/galcert
	rm -f $(DESTDIR)$(PREFIX)/share/zsh/site-functions/_galcert
	rm -f $(DESTDIR)$(PREFIX)/share/fish/vendor_completions.d/galcert.fish
	rm -rf $(DESTDIR)$(PREFIX)/share/doc/galcert

clean:
	rm -rf galcert six.cert crates/*/out
