#!/usr/bin/env bash
# Whether ./census runs the released executable for exactly the sources that it was made from, and dist/check finds what differs, also
# in the module for a web page: on a copy of the sources, with a word of its own in place of the kit, of the executable and of the
# module, so that nothing is proved.
# Also whether make test builds nothing, but says that make would.
. "$(dirname "${BASH_SOURCE[0]}")/lib.sh"
shopt -s nullglob
cd "$top"
cp -a --parents census crates.txt HANDLES Makefile docs/census.1 dist tests/{run,parts.sh} crates/*/{src,specs,proofs} "$room"
cd "$room"
rm -f dist/census-x86_64-linux dist/sources.sha256 dist/kit dist/page.wasm dist/web.sha256

# The kit: rt version names it, and the rest fails, or proves each crate and makes an executable that prints its words, and a module,
# where the file works is there.
mkdir bin
cat >bin/rt <<'RT'
#!/bin/sh
if [ "$1" = version ]; then cat "$ROOM/kit"; exit; fi
echo "rt $1 in ${PWD##*/}"
echo "${PWD##*/}" >>"$ROOM/asked"
if [ ! -e "$ROOM/works" ]; then exit 1; fi
if [ "$1" = ci ]; then
  for crate in crates/*; do echo "rt: ${crate##*/} proved"; done
  ls >"$ROOM/copied"
  mkdir -p crates/census/out
  printf '#!/bin/sh\necho "built $*"\n' >crates/census/out/census
  chmod +x crates/census/out/census
fi
if [ "$1 ${PWD##*/}" = 'lib page' ]; then
  mkdir -p out
  echo 'a module' >out/page.wasm
fi
RT
chmod +x bin/rt
export PATH=$room/bin:$PATH ROOM=$room
echo 'a kit' >kit

# The command fails; what it says is in the file said.
fails() {
  if "$@" >said 2>&1; then
    echo "released: $* should have failed" >&2
    false
  fi
}

# Whether the tests say that nothing is there to run, and how it is built; they ask no kit.
nothing_to_test() {
  rm -f asked
  fails tests/run
  test "$(cat said)" = 'census: there is no executable for these sources; make proves and builds one, with the Rattle kit'
  test ! -e asked
}

# Whether ./census does not run the released executable, but asks the kit for a build, and dist/check finds the difference.
out_of_date() {
  nothing_to_test
  fails ./census show
  grep -q . asked
  checked_as_different
}

# Whether dist/check, after a build of these sources, says that dist/ is out of date, and what mends it.
checked_as_different() {
  build
  fails dist/check
  grep -q 'make dist' said
  take_away
}

# Whether dist/check passes after a build of these sources, and says with which kit the same bytes were released and which is here.
checked_as_the_same() {
  build
  dist/check >said
  grep -q 'byte for byte' said
  grep -q "released with the kit 'a kit', and the kit here is 'a kit of another day'" said
  take_away
}

# Whether dist/check passes after a build of these sources into other bytes, and says that this kit does not vouch for those.
checked_as_vouched_for_elsewhere() {
  build
  dist/check >said 2>&1
  grep -q "'a kit of another day', makes another executable of these sources than 'a kit'" said
  grep -q 'not vouched for here' said
  take_away
}

# Puts what the kit makes of these sources where a build stands.
build() {
  mkdir -p crates/census/out
  cp -p executable crates/census/out/census
  touch works
}

# Takes it away again, and the kit makes nothing any more.
take_away() {
  rm -rf crates/*/out works
}

# Whether ./census runs the released executable and asks no kit.
up_to_date() {
  rm -f asked
  test "$(./census show)" = 'built show'
  test "$(dist/program --ready)" = "$PWD/dist/census-x86_64-linux"
  test ! -e asked
}

nothing_to_test
if command -v make >/dev/null; then fails make test; fi

# A build that fails shows the last lines of its log; one that works is of a copy, which goes, of the crates that the program stands
# on, and names each of them, and then none.
fails ./census show
grep -q '^rt ci in census-build-' said
grep -q 'was not proved and built' said
touch works
TMPDIR=$room dist/build 2>said
test "$(grep -c '^census:  *[0-9]* of [0-9]* ' said)" = "$(dist/crates census | wc -l)"
grep -q "^census: $(dist/crates census | wc -l) of $(dist/crates census | wc -l) " said
test "$(tr '\n' ' ' <copied)" = 'HANDLES crates crates.txt '
test -z "$(echo census-build-*)"
dist/build 2>said
test ! -s said
test "$(./census show)" = 'built show'
test "$(dist/program --ready)" = "$PWD/crates/census/out/census"

# The release, and the program without a build.
dist/release >said 2>&1
grep -q "make web" said
dist/web >/dev/null 2>&1
dist/release >said 2>&1
test "$(wc -l <said)" = 1
cp -p crates/census/out/census executable
test "$(cat dist/page.wasm)" = 'a module'
dist/check >/dev/null
dist/check --module >said
grep -q 'module .* byte for byte' said
take_away
up_to_date
if command -v make >/dev/null; then
  make install DESTDIR="$room/installed" PREFIX=/usr >/dev/null
  test "$(installed/usr/bin/census show)" = 'built show'
  cmp docs/census.1 installed/usr/share/man/man1/census.1
fi

# One byte of a source is another, with the time of the file as it was; a source is gone; one has another name; one comes.
source=crates/census_words/src/help.rt
cp -p $source kept
sed -i '1s/The/Tha/' $source
touch -r kept $source
out_of_date
rm $source
out_of_date
mv kept crates/census_words/src/halp.rt
out_of_date
mv crates/census_words/src/halp.rt $source
up_to_date
touch crates/census/src/more.rt
out_of_date
rm crates/census/src/more.rt
sed -i 's/^written:$/written: itoa/' crates.txt
out_of_date
sed -i 's/^written: itoa$/written:/' crates.txt
up_to_date

# A source of the module alone is another: the program is the same, and the module is refused.
echo >>crates/lent/src/lib.rt
up_to_date
build
fails dist/check
grep -q 'make web' said
take_away
sed -i '$d' crates/lent/src/lib.rt

# One byte of the module is another: refused, where it is built.
echo >>dist/page.wasm
build
dist/check >/dev/null
fails dist/check --module
grep -q 'module' said
take_away
echo 'a module' >dist/page.wasm

# One byte of the released executable is another, and the kit is that of the release: refused. Nothing is built: refused.
sed -i 's/built/boilt/' dist/census-x86_64-linux
checked_as_different
fails dist/check
grep -q 'no build of these sources' said

# The kit is of another day. The same bytes pass, and both kits are named; other bytes pass as not vouched for; sources that are
# not those of the release are refused.
echo 'a kit of another day' >kit
checked_as_vouched_for_elsewhere
cp -p executable dist/census-x86_64-linux
up_to_date
checked_as_the_same
sed -i 's/^written:$/written: itoa/' crates.txt
checked_as_different
sed -i 's/^written: itoa$/written:/' crates.txt
echo 'a kit' >kit

# The machine is another one.
printf '#!/bin/sh\necho Linux aarch64\n' >bin/uname
chmod +x bin/uname
fails ./census show
grep -q . asked
echo "the released executable is run for its own sources alone, and what differs is found, in the module too"
