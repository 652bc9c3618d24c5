#!/usr/bin/env bash
# `census status`: whose a state is, who said how much, its games, notes, forks, digest, size and lock;
# and what is no state.
. "$(dirname "${BASH_SOURCE[0]}")/lib.sh"

census init anna 1 >/dev/null
census init ben 2 >/dev/null
census note anna author-name 'Anna Berg' >/dev/null
census note anna kayles old >/dev/null
census unnote anna kayles >/dev/null
census extend anna 200 0.77 >/dev/null
census period anna 0.77 70 12 >/dev/null
census compute ben 0.07 3 >/dev/null
census period ben 0.07 53 34 >/dev/null
census delta ben ben.delta >/dev/null
census merge anna ben.delta >/dev/null

# The digest and the size are those that other commands give.
due() {
  printf 'author 1 (Anna Berg)\noperations 7\nby 1 (Anna Berg) 5\nby 2 2\ngames 2\nnotes 1\nforks %s\n' "$1"
  printf 'digest %s\nbytes %s\nlock %s\n' "$(census digest anna | cut -d ' ' -f 1)" "$(wc -c <anna)" "$2"
}
census status anna | cmp - <(due 0 free)
census status ben | sed -n 1,3p >said
cmp said - <<'END'
author 2
operations 2
by 2 2
END

# What became of the blocks and periods, which is said where it is asked for: one of four is a claim that does not hold.
census status anna --full | cmp - <(due 0 free; printf '%s\n' 'proved 2' 'refuted 1, of them 1 of yours' 'pending 1')

# Where another author's claim is refuted, it is not counted as one's own.
cp ben other
census delta anna anna.delta >/dev/null
census merge other anna.delta >/dev/null
census status other --full | grep '^proved\|^refuted\|^pending' >said
cmp said - <<'END'
proved 2
refuted 1, of them 0 of yours
pending 1
END
census status ben --full | tail -n 2 | cmp - <(printf '%s\n' 'refuted 0' 'pending 1')

# The lock that another command holds, or nobody.
: >anna.lock
census status anna | cmp - <(due 0 free)
if command -v flock >/dev/null; then
  flock anna.lock "${program[@]}" status anna | cmp - <(due 0 held)
fi
rm anna.lock

# A number that was used twice.
cp anna copy
census note copy fork one >/dev/null
census note anna fork another >/dev/null
census delta copy copy.delta >/dev/null
census merge anna copy.delta >/dev/null
census status anna >said
grep -qx 'forks 1' said
grep -qx 'by 1 (Anna Berg) 7' said

# An empty state, and what is none.
census init empty 9 >/dev/null
census status empty | grep -v '^digest\|^bytes' >said
cmp said - <<'END'
author 9
operations 0
games 0
notes 0
forks 0
lock free
END
if census status ben.delta 2>said; then false; fi
grep -q '^census: Load ' said
status=0
census status none 2>said || status=$?
[ "$status" = 3 ]
echo "a status says what a state holds"
