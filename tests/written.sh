#!/usr/bin/env bash
# What `show`, `read`, `json` and `report` write as they make it: a part of a table with the authors of
# the whole, an output that is full or closed, and a text of many pieces.
. "$(dirname "${BASH_SOURCE[0]}")/lib.sh"

census init anna 1 >/dev/null
census init ben 2 >/dev/null
census note anna author-name 'Anna Berg' >/dev/null
census compute anna 0.77 5 >/dev/null
census compute ben 0.6 3 >/dev/null
census delta ben ben.delta >/dev/null
census merge anna ben.delta >/dev/null

# The authors of a part, with their names, are those of the whole; the notes are left out.
census show anna --only 0.77 >said
cmp said - <<'END'
census 2
game 0.77 known 6
values 0 0 1 2 3 1 4
block 1.2 at 1 count 5 proved
author 1 through 2 last 2
author 2 through 1 last 1
end
END
census json anna --only 0.77 >said
cmp said - <<'END'
{"authors":[{"author":1,"last":2,"name":"Anna Berg","through":2},{"author":2,"last":1,"through":1}],"census":2,"forks":[],"games":[{"blocks":[{"author":1,"count":5,"number":2,"start":1,"status":"proved"}],"code":"0.77","known":6,"least_period":null,"periods":[],"values":[0,1,2,3,1,4]}],"notes":[]}
END
census report anna --only 0.6 >said
grep -q 'Anna Berg' said
test "$(grep -c 'id="game-' said)" = 1
echo '# none' >none
census show anna --codes none >said
cmp said - <<'END'
census 2
author 1 through 2 last 2
author 2 through 1 last 1
end
END

# All of it is as it was: the catalogue of both files together is that of the state.
census show anna | cmp - <(census read anna ben.delta)

# A text of many pieces comes whole.
census extend anna 40000 0.07 >/dev/null
census show anna >said
test "$(wc -c <said)" -gt 65536
test "$(tail -n 1 said)" = end
test "$(grep -c '^values ' said)" = $((1 + 1 + 2500))
census json anna | tail -c 3 | cmp - <(printf ']}\n')
census report anna --values all | tail -n 1 | grep -qx '</html>'

# A word that is no code, and what is no state, are refused before anything is written; so is a file that is neither.
refused 1 'Code Form' show anna --only ''
refused 1 'Load Version' json ben.delta
refused 1 'Merge Version' read anna said

# An output that is full, and one that nobody reads any more.
if [ -e /dev/full ]; then
  for view in show json report 'show --only 0.77' read; do
    status=0
    census ${view%% *} anna ${view#"${view%% *}"} >/dev/full 2>fault || status=$?
    test "$status" = 3
    test "$(cat fault)" = 'census: Write'
  done
fi
status=0
{ census show anna 2>fault || echo $? >status; } | head -c 1 >/dev/null
test "$(cat status)" = 3
test "$(cat fault)" = 'census: Write'
