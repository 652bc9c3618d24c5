# make             proves and builds the program
# make test        every test that runs the program, in some minutes and with no kit; it builds nothing
# make check       every proof from nothing, and then these tests, some of them in a longer form; .ci/run also tries the wrong bodies
# make install     the executable, its page of the manual and its completions for shells, below PREFIX
# make dist        makes the build the released executable
# make web         proves and builds the module of the web page, and puts it there
# make clean       gives the disk back that proofs and builds take
PREFIX = /usr/local
SHARE = $(DESTDIR)$(PREFIX)/share

.PHONY: all test check install dist web clean

all:
	@dist/build

test:
	@tests/run

check:
	.ci/run --proofs

install:
	install -D "$$(dist/program)" "$(DESTDIR)$(PREFIX)/bin/census"
	install -D -m 644 docs/census.1 "$(SHARE)/man/man1/census.1"
	"$$(dist/program)" completion bash | install -D -m 644 /dev/stdin "$(SHARE)/bash-completion/completions/census"
	"$$(dist/program)" completion zsh | install -D -m 644 /dev/stdin "$(SHARE)/zsh/site-functions/_census"
	"$$(dist/program)" completion fish | install -D -m 644 /dev/stdin "$(SHARE)/fish/vendor_completions.d/census.fish"

dist: all
	dist/release

web:
	dist/web
	dist/pack

clean:
	rm -rf crates/*/out
