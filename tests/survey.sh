#!/usr/bin/env bash
# Surveys games with the program, and says whether the periods are those of the literature (Guy and Smith 1956; Winning Ways,
# chapter 4; Flammenkamp's tables), that nothing is issued twice, and that a fault changes nothing.
. "$(dirname "${BASH_SOURCE[0]}")/lib.sh"

# The words print this text.
prints() {
  census "${@:2}" 2>&1 | diff <(echo "$1") -
}

# The words are refused, and leave the state as it is.
changes_nothing() {
  cp state before
  refused "$@"
  cmp state before
}

prints 'author 7' init state 7

prints '0.77 period 12 from 71 needs 168 known 17000
0.07 period 34 from 53 needs 176 known 17000
0.137 period 34 from 52 needs 175 known 17000
0.156 period 349 from 3479 needs 7659 known 17000
0.055 period 148 from 259 needs 817 known 17000
0.356 period 142 from 7315 needs 14917 known 17000
0.644 period 442 from 3256 needs 7399 known 17000
0.165 period 1550 from 5181 needs 13465 known 17000' \
  survey state 17000 0.77 0.07 0.137 0.156 0.055 0.356 0.644 0.165

# Nothing is issued twice, and what is found was claimed.
prints '0.77 known 17000 issued 0
0.6 known 1100 issued 2
0.6 known 1100 issued 0' extend state 1100 0.77 0.6 .60
prints '0.6 no period in 1100 values
0.77 period 12 from 71 needs 168 known 17000' find state 0.6 0.77
prints '{"code":"0.6","period":null,"known":1100}
{"code":"0.77","period":12,"from":71,"needs":168,"known":17000}' find state 0.6 0.77 --json
cp state before
prints '0.77 period 12 from 71 needs 168 known 17000' survey state 17000 0.77
prints '{"code":"0.77","period":12,"from":71,"needs":168,"known":17000}' survey state 17000 0.77 --json
cmp state before

# What the state's author said already is left out, and what others said is not.
prints 'left out 2
0.077 known 1100 issued 2' extend state 1100 0.77 0.077 0.6 --skip-done
prints 'left out 0' survey state 1100 --codes - --skip-done </dev/null
prints '{"left_out":1}' survey state 1100 0.6 --json --skip-done
cp state before
prints 'left out 3' survey state 1100 0.6 0.6 0.077 --skip-done
cmp state before
census delta state all.delta >told
census init other 8 >told
census merge other all.delta >told
prints 'left out 0
0.6 known 1100 issued 0' extend other 1100 0.6 --skip-done

# Of all games of three digits, many of which have the values of one before them, each has its own: those that a search computes of
# it alone.
census init many 9 >told
census survey many 4096 $(printf '0.%s ' {0..7}{0..7}{1..7}) >told
for code in $(printf '0.%s ' {0..7}{0..7}{1..7}); do
  census bfile many "$code" | diff - <(census search --bfile 4096 "$code")
done

# A fault changes nothing.
changes_nothing 1 'Code Digit' extend state 1200 0.6 0.8
changes_nothing 1 'Code Head' survey state 1200 0.6 5.7 0.8
changes_nothing 1 'Code Digit' find state 0.6 0.8
changes_nothing 1 'Code Digit' survey state 1200 0.6 0.8 --skip-done
for count in 0 65537 x; do
  changes_nothing 2 Number extend state "$count" 0.6
  changes_nothing 2 Number survey state "$count" 0.6
done
refused 2 Number extend none 0 0.8
test ! -e none
echo 'survey: each line and each refusal is as it should be'
