#!/usr/bin/env bash
# `census log`: who said what in states and deltas together, with names, by author, by game and since some numbers; `census diff`:
# what one file has and another has not, also in some games alone; and what is refused.
. "$(dirname "${BASH_SOURCE[0]}")/lib.sh"

census init anna 1 >/dev/null
census init ben 2 >/dev/null
census note anna author-name 'Anna Berg' >/dev/null
census note anna kayles 'from 1 on' >/dev/null
census compute anna 0.77 5 >/dev/null
census period anna 0.77 71 12 >/dev/null
census unnote anna kayles >/dev/null
census compute ben 0.07 3 >/dev/null
census note ben empty '' >/dev/null
census delta ben ben.delta >/dev/null

cat >both <<'END'
1.1 (Anna Berg) note author-name Anna Berg
1.2 (Anna Berg) note kayles from 1 on
1.3 (Anna Berg) block 0.77 at 1 count 5
1.4 (Anna Berg) period 0.77 71 12
1.5 (Anna Berg) takes back 1.2
2.1 block 0.07 at 1 count 3
2.2 note empty 
END
census log anna ben.delta | cmp - both
census log ben.delta anna ben | cmp - both
census log anna ben.delta --author 2 | cmp - <(grep '^2' both)
census log anna ben.delta --game 0.77 | cmp - <(grep ' 0\.77 ' both)
census log anna ben.delta --game 0.77 --author 2 | cmp - /dev/null
census log --author 9 anna | cmp - /dev/null

# What was said since some numbers: of an author who is named behind that number, and of others all.
census log anna ben.delta --since 1.3 | cmp - <(grep '^1\.[45]\|^2' both)
census log anna ben.delta --since 1.3 --since 2.2 --since 1.1 | cmp - <(grep '^1\.[45]' both)
census log anna ben.delta --since 1.3 --author 1 --game 0.77 | cmp - <(grep '^1\.4' both)
census log anna ben.delta --since 7.1 | cmp - both
for dot in 1 1.0 0.1 a.b 1.; do
  status=0
  census log anna --since "$dot" 2>said || status=$?
  [ "$status" = 2 ]
  grep -qx 'census: Number' said
done

# A number that was used twice has a line for each of its contents.
cp anna copy
census compute anna 0.3 2 >/dev/null
census compute copy 0.5 2 >/dev/null
[ "$(census log anna copy --author 1 | grep -c '^1\.6 ')" = 2 ]

# What one file has and another has not: by games, then notes and what is taken back. The status tells whether they differ.
census init cleo 3 >/dev/null
census merge cleo ben.delta >/dev/null
census note cleo kayles 'of cleo' >/dev/null
status=0
census diff ben cleo >said || status=$?
[ "$status" = 1 ]
cmp said - <<<'+ 3.1 note kayles of cleo'
census compute ben 0.07 2 >/dev/null
census compute ben 0.3 2 >/dev/null
status=0
census diff ben - <cleo >said || status=$?
[ "$status" = 1 ]
cmp said - <<'END'
- 2.4 block 0.3 at 1 count 2
- 2.3 block 0.07 at 4 count 2
+ 3.1 note kayles of cleo
END
census diff - ben.delta <ben.delta | cmp - /dev/null
status=0
census diff anna copy >said || status=$?
[ "$status" = 1 ]
cmp said - <<'END'
- 1.6 (Anna Berg) block 0.3 at 1 count 2
+ 1.6 (Anna Berg) block 0.5 at 1 count 2
used twice - 1.6 (Anna Berg) block 0.3 at 1 count 2
used twice + 1.6 (Anna Berg) block 0.5 at 1 count 2
END

# A number of which one side knows all contents is not used twice between the two.
cp anna whole
census delta copy copy.delta >/dev/null
census merge whole copy.delta >/dev/null
census diff anna whole >said || true
cmp said - <<<'+ 1.6 (Anna Berg) block 0.5 at 1 count 2'
status=0
census diff - - 2>said || status=$?
[ "$status" = 2 ]

# What they have of some games, in the order in which these are named: blocks and periods, and no notes. The status is that of
# these games.
part_of_diff() {
  status=0
  census diff ben cleo "$@" >said || status=$?
}
part_of_diff --only 0.07
[ "$status" = 1 ]
cmp said - <<<'- 2.3 block 0.07 at 4 count 2'
part_of_diff --only 0.07 --only 0.3
[ "$status" = 1 ]
printf '%s\n' '- 2.3 block 0.07 at 4 count 2' '- 2.4 block 0.3 at 1 count 2' >parts
cmp said parts
printf '0.07 # first\n\n0.77 0.3\n' >codes
part_of_diff --codes codes
cmp said parts
part_of_diff --only 0.3 --codes - <codes
cmp said <(tail -n 1 parts; cat parts)
part_of_diff --codes codes --part 1/3
[ "$status" = 1 ]
cmp said <(head -n 1 parts)
part_of_diff --codes codes --part 2/3
[ "$status" = 0 ]
cmp said /dev/null
part_of_diff --codes codes --part 3/3
cmp said <(tail -n 1 parts)
part_of_diff --only 0.77
[ "$status" = 0 ]
cmp said /dev/null
part_of_diff --codes - </dev/null
[ "$status" = 0 ]
census diff - ben.delta --only 0.07 <ben.delta | cmp - /dev/null
census diff anna copy --only 0.5 >said || true
cmp said - <<<'+ 1.6 (Anna Berg) block 0.5 at 1 count 2'

# Words of it that are refused, and files.
refused_part() {
  status=0
  census diff "${@:3}" >said 2>faults <codes || status=$?
  [ "$status" = "$1" ]
  grep -q "^census: $2" faults
  cmp said /dev/null
}
refused_part 1 'Code ' ben cleo --only 0.9
refused_part 1 'Code ' ben cleo --only 0.07 --only x
refused_part 2 Words ben cleo --part 1/2
refused_part 2 Words ben - --codes -
refused_part 2 Number ben cleo --codes codes --part 3/2
refused_part 3 File ben cleo --codes none
refused_part 1 'Merge ' ben codes --only x

# Files and words that are refused.
head -c 40 anna >cut
if census diff ben.delta cut 2>said; then false; fi
grep -qx 'census: Load Refused' said
if census log ben.delta cut 2>said; then false; fi
grep -qx 'census: Load Refused' said
echo damaged >damaged
if census log damaged 2>said; then false; fi
grep -qx 'census: Merge Version' said
if census log anna --game 0.9 2>said; then false; fi
grep -q '^census: Code ' said
status=0
census log anna --author 0 2>said || status=$?
[ "$status" = 2 ]
grep -qx 'census: Number' said
status=0
census log none 2>said || status=$?
[ "$status" = 3 ]
echo "each line says who said what"
