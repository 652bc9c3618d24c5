#!/usr/bin/env bash
# Deals a list of games out in parts, each to a state of its own, as whoever has several processors does, and looks what is left
# of the list before, meanwhile and after. Lists are read in each of their forms, and those that are none are refused.
. "$(dirname "${BASH_SOURCE[0]}")/lib.sh"

# What is left of a list is this text.
leaves() {
  census left "${@:2}" 2>&1 | diff <(printf '%s' "$1") -
}

printf '0.%s\n' {1..6} {0..3}{1..6} > codes

# Each part has every third code.
of_part() {
  awk -v part="$1" 'NR % 3 == part % 3' codes
}

# Without a file all of the list is left.
census left 300 --codes codes | cmp codes -
for part in 1 2 3; do
  census left 300 --codes codes --part "$part/3" | diff <(of_part "$part") -
done

# Each part is surveyed by itself, and then nothing of it is left.
for part in 1 2 3; do
  census init "part$part.state" "1$part" > told
  census left 300 --codes codes --part "$part/3" "part$part.state" | xargs "${program[@]}" survey "part$part.state" 300 > told
  leaves '' 300 --codes codes --part "$part/3" "part$part.state"
  census delta "part$part.state" "part$part.delta" > told
done
census left 300 --codes codes part1.state part3.delta | diff <(of_part 2) -
leaves '' 300 --codes codes part3.state part1.delta part2.delta
census left 301 --codes codes part3.state part1.delta part2.delta | cmp codes -

# Together they have what one survey has.
census union all.delta part{1,2,3}.delta > told
census union again.delta part{3,1,2}.delta > told
cmp all.delta again.delta
leaves '' 300 --codes codes all.delta
census init one.state 10 > told
xargs "${program[@]}" survey one.state 300 < codes > told
census init all.state 20 > told
census merge all.state all.delta > told
census games all.state | diff <(census games one.state) -

# The heaps of a game lie in blocks of whoever, be they true or not.
census init false.state 30 > told
echo '{"code":"0.7","start":2,"values":[9,9,9]}' | census import false.state - > told
echo '{"code":"0.7","start":1,"values":[9]}' | census import false.state - > told
echo 0.7 > seven
leaves '' 5 --codes seven false.state
leaves $'0.7\n' 6 --codes seven false.state

# A list has comments, blanks and ends of lines of several kinds, and what stands there twice is left twice.
printf '# 0.07\r\n 0.77 .6\t0.770# 0.07 and more\r\n\r4.0 #\n0.77' > list
leaves $'0.77\n0.6\n0.77\n4.0\n0.77\n' 2 --codes list
leaves $'0.6\n0.77\n' 2 --codes - --part 2/3 < list
leaves '' 1 --codes list
printf '# nothing\n' > list
leaves '' 1 --codes list

# Other commands take lists and parts too: the words come first, and then the list, and a part is of both.
printf '0.77 # Kayles\n0.6\n' > few
census find one.state 0.07 --codes few | diff <(census find one.state 0.07 0.77 0.6) -
census find one.state 0.07 --part 2/2 --codes - < few | diff <(census find one.state 0.77) -
census games one.state --codes few 0.07 | diff <(census games one.state 0.07 0.77 0.6) -
census games one.state --codes few --part 3/3 | diff /dev/null -
census games one.state --part 2/2 0.77 | diff /dev/null -
census search 300 --codes few --part 2/2 | diff <(census search 300 0.6) -
census show one.state --only 0.07 --codes few | diff <(census show one.state --only 0.07 --only 0.77 --only 0.6) -
census json one.state --codes few | diff <(census json one.state --only 0.77 --only 0.6) -
census survey one.state 400 --codes few --part 1/2 | diff <(census survey one.state 400 0.77) -
census extend one.state 400 --codes list | diff /dev/null -
for command in 'survey one.state 1' 'find one.state' 'search 1'; do
  if census $command 2> told; then exit 1; fi
  grep -qx '  <CODE>...' told
done
refused 2 Words games one.state --part 1/2
refused 2 Words search 1 --bfile 0.77 --codes few
refused 2 Words search 1 --window --save file 0.77 --part 1/1
refused 3 File survey one.state 1 --codes none
refused 2 Number survey one.state 1 --codes few --part 3/2

# The operations of some games are those whose game is one of them.
census note one.state kayles 'of no game' > told
census delta one.state few.delta --codes few --only 0.07 > told
diff <(census log one.state | grep -E ' (block|period) 0\.(07|77|6) ') <(census log few.delta)
census delta one.state part.delta --codes few --part 2/2 > told
diff <(census log one.state --game 0.6) <(census log part.delta)
census delta one.state none.delta --codes list | diff <(echo 'operations 0') -
test ! -s <(census log none.delta)

# A word that is no code is named by its line.
printf '0.77\n\n0.6 0.8 # 0.9\n0.x\n' > list
refused 1 'Code Digit' left 1 --codes list
refused 1 'Code Digit' survey nobody 1 --codes list
refused 1 'Code Digit' delta nobody nothing.delta --codes list
census left 1 --codes list --explain 2> told && exit 1
grep -q 'list, line 3: .*0\.8' told
for part in 0/3 4/3 1/65537 1 x/3 1/ /3 1/3/3; do
  refused 2 Number left 1 --codes codes --part "$part"
done
refused 2 Number left 0 --codes codes
refused 2 Number left 65537 --codes codes
refused 2 Words left 1 codes
refused 3 File left 1 --codes none
refused 3 File left 1 --codes codes none
refused 1 'Merge Version' left 1 --codes codes codes
echo 'left: what is left of a list is what no block has'
