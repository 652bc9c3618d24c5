#!/usr/bin/env bash
# Numbers of authors, and digests: two states whose numbers are drawn; one that is put back from a copy, and goes on under another
# number; digests that are the same where the operations are, whoever the authors are; and numbers that are refused.
. "$(dirname "${BASH_SOURCE[0]}")/lib.sh"

# The digits of a file's digest.
digits() {
  census digest "$1" | cut -c 1-64
}

# Takes all operations of each state into the other.
exchange() {
  census delta "$1" one.delta >/dev/null
  census delta "$2" other.delta >/dev/null
  census merge "$1" other.delta >/dev/null
  census merge "$2" one.delta >/dev/null
}

# Two numbers are drawn, of which neither is 0. That they are the same has a chance of 1 in 4294967295.
census init anna --draw >first
census init ben --draw >second
grep -qx 'author [1-9][0-9]*' first
grep -qx 'author [1-9][0-9]*' second
if cmp -s first second; then exit 1; fi
anna=$(sed 's/author //' first)

# The number of a text is the first eight digits of its SHA-256, so that one text has one number.
for text in '4096 3/64' '' 'é, 0 and more'; do
  rm -f text
  census init text --for "$text" | diff <(echo "author $((16#$(printf %s "$text" | sha256sum | cut -c 1-8)))") -
done
if census init none --for one --draw 2>fault; then exit 1; fi
if census init none 1 --for one 2>fault; then exit 1; fi

# A number, or one that is drawn, and not both; nor neither.
if census init none 1 --draw 2>fault; then exit 1; fi
if census init none 2>fault; then exit 1; fi
grep -qx '  <ID|--draw|--for TEXT>' fault
test ! -e none

# States of different authors have one digest where they hold the same operations; it is that of their delta, and of its bytes.
test "$(digits anna)" = "$(digits ben)"
census note anna first 'of Anna' >/dev/null
census compute ben 0.77 168 >/dev/null
if [ "$(digits anna)" = "$(digits ben)" ]; then exit 1; fi
exchange anna ben
test "$(digits anna)" = "$(digits ben)"
census delta anna all.delta >/dev/null
census digest anna ben all.delta >printed
test "$(wc -l <printed)" = 3
test "$(cut -c 1-64 printed | sort -u)" = "$(digits anna)"
test "$(sed -n 3p printed)" = "$(sha256sum all.delta)"
test "$(census digest --json all.delta)" = "{\"digest\":\"$(digits anna)\",\"file\":\"all.delta\"}"

# Anna's state is lost, and put back from a copy, after an operation that Ben has.
cp anna copy
census note anna second 'after the copy' >/dev/null
exchange anna ben
cp copy other
mv copy anna

# Where it is asked for, the old copy is warned of as it takes in what it had issued itself; else nothing is said.
census merge other one.delta >/dev/null 2>silent
test ! -s silent
cp anna asked
census --explain merge asked one.delta >printed 2>warned
test "$(cat printed)" = 'new 1'
grep -q "^warning: $anna\.2 is by your number and not from this state: .*census renumber$" warned
test "$(wc -l <warned)" = 1

# It goes on under another number.
census renumber anna >printed
grep -qx "author $anna renumbered [1-9][0-9]*" printed
new=$(sed 's/.* //' printed)
test "$new" != "$anna"
test "$(census note anna third 'of Anna again')" = "issued $new.1"
exchange anna ben
test "$(digits anna)" = "$(digits ben)"
census show anna >catalogue
census show ben | diff - catalogue
grep -qx "note second $anna.2 after the copy" catalogue
grep -qx "note third $new.1 of Anna again" catalogue
if grep '^fork ' catalogue; then exit 1; fi

# A number that the state holds operations by is refused, and so is 0; the state stays as it is.
cp anna before
refused 1 Held renumber anna "$anna"
refused 1 Held renumber anna "$new"
refused 1 Zero renumber anna 0
refused 2 Number renumber anna 4294967296
cmp anna before
test "$(census renumber anna 7)" = "author $new renumbered 7"

# The first file that is refused ends the digests; the lines before it stand.
printf 'OGS1' >cut
printf 'x' >neither
if census digest ben cut ben >printed 2>fault; then exit 1; fi
test "$(cat printed)" = "$(census digest ben)"
test "$(cat fault)" = 'census: Load Refused'
refused 1 'Merge Version' digest neither
refused 3 File digest missing
echo "numbers were drawn, a state that was put back went on under another, and digests told where operations are the same"
