#!/usr/bin/env bash
# Notes that views read: what their authors withdraw, and the long periods that somebody says of a game.
. "$(dirname "${BASH_SOURCE[0]}")/lib.sh"

# What another state has goes into Anna's.
take() {
  census delta "$1" "$1.delta" >/dev/null
  census merge anna "$1.delta" >/dev/null
}

# How often a text stands in what the words print.
count() {
  local text=$1
  shift
  census "$@" | grep -oF -e "$text" | wc -l || true
}

census init anna 1 >/dev/null
census init ben 2 >/dev/null
census compute anna 0.77 199 >/dev/null
census period anna 0.77 71 12 >/dev/null
echo '{"code":"0.77","start":68,"values":[1,8,2,7]}' >block.json
test "$(census import ben block.json)" = 'issued 2.1'
test "$(census period ben 0.77 70 12)" = 'issued 2.2'
take ben

# Heap 70 of Kayles has the nim-value 6, and heap 82 has 2.
census games anna >said
cmp said - <<'END'
0.77 known 200 period 12 from 71 blocks proved 1 refuted 1 pending 0 claims proved 1 refuted 1 pending 0
END
census games anna --refuted >said
cmp said - <<'END'
0.77 block 2.1 at 68 count 4 refuted at 70 claimed 2 true 6
0.77 period 2.2 from 70 by 12 refuted at 70 value 6 at 82 value 2
END
test "$(count withdrawn json anna)" = 0
test "$(count withdrawn report anna)" = 0

# What does nothing: a note of another author, one that says more or less than a dot, or a dot of another author.
census note anna withdrawn 2.1 >/dev/null
for text in '2.1 ' ' 2.1' '2.1, sorry' 2 2. 02.1 2.01 2.10 1.1 2-1; do
  census note ben withdrawn "$text" >/dev/null || true # some are refused, as texts of notes
done
take ben
census games anna | cmp - <(echo '0.77 known 200 period 12 from 71 blocks proved 1 refuted 1 pending 0 claims proved 1 refuted 1 pending 0')
test "$(count '"withdrawn":true' json anna)" = 0
test "$(count ', withdrawn' report anna)" = 0
census unnote anna withdrawn >/dev/null
census unnote ben withdrawn >/dev/null
take ben

# What its author withdraws: apart in lines, in JSON and on pages.
census note ben withdrawn 2.1 >/dev/null
take ben
census games anna | cmp - <(echo '0.77 known 200 period 12 from 71 blocks proved 1 refuted 0 withdrawn 1 pending 0 claims proved 1 refuted 1 pending 0')
census games anna --json >said
cmp said - <<'END'
{"code":"0.77","known":200,"period":12,"from":71,"blocks":{"proved":1,"refuted":0,"withdrawn":1,"pending":0},"claims":{"proved":1,"refuted":1,"pending":0}}
END
census games anna --csv | tail -n 1 | tr -d '\r' | cmp - <(echo '0.77,200,12,71,true,1,0,0,1,1,0')
census note ben author-name Ben >/dev/null
take ben
census games anna --refuted >said
cmp said - <<'END'
0.77 block 2.1 at 68 count 4 refuted at 70 claimed 2 true 6 withdrawn author Ben
0.77 period 2.2 from 70 by 12 refuted at 70 value 6 at 82 value 2 author Ben
END
census games anna --refuted --json >said
cmp said - <<'END'
{"code":"0.77","block":"2.1","at":68,"count":4,"refuted":70,"claimed":2,"true":6,"withdrawn":true,"name":"Ben"}
{"code":"0.77","claim":"2.2","from":70,"by":12,"refuted":70,"value":6,"later":82,"later_value":2,"name":"Ben"}
END
test "$(count '"status":"refuted","true":6,"withdrawn":true}' json anna)" = 1
test "$(count '"withdrawn":true' json anna)" = 1
test "$(count '<td>refuted, withdrawn</td>' report anna)" = 1
test "$(count '<caption>Refuted blocks, withdrawn</caption>' report anna)" = 1
test "$(count '<caption>Refuted blocks</caption>' report anna)" = 0
test "$(count '<caption>Refuted period claims</caption>' report anna)" = 1
test "$(count '<caption>Refuted, withdrawn</caption>' report anna)" = 1
test "$(count '<td>0 and 1 withdrawn</td>' report anna)" = 1
test "$(count '<th scope="col">blocks refuted</th>' report anna)" = 1
test "$(count '<th scope="col">blocks pending</th>' report anna)" = 0
census site anna folder >/dev/null
test "$(grep -oF '<caption>Refuted, withdrawn</caption>' folder/index.html | wc -l)" = 1
test "$(grep -oF '<td>refuted, withdrawn</td>' folder/0.77.html | wc -l)" = 1
test "$(grep -oF '"withdrawn":true' folder/0.77.json | wc -l)" = 1

# What is proved stays so, and counts as such.
census note anna withdrawn 1.1 >/dev/null
census games anna | cmp - <(echo '0.77 known 200 period 12 from 71 blocks proved 1 refuted 0 withdrawn 1 pending 0 claims proved 1 refuted 1 pending 0')
test "$(count '"status":"proved","withdrawn":true}' json anna)" = 1
test "$(count '<td>proved, withdrawn</td>' report anna)" = 1

# Taken back, all is as it was, but for the name and the numbers of what was said since.
census unnote anna withdrawn >/dev/null
census unnote ben withdrawn >/dev/null
take ben
census games anna | cmp - <(echo '0.77 known 200 period 12 from 71 blocks proved 1 refuted 1 pending 0 claims proved 1 refuted 1 pending 0')
test "$(count withdrawn json anna)" = 0
test "$(count withdrawn report anna)" = 0

# Long periods that somebody says: told of with their games, and not as proved. A short one a claim can have.
census init carl 3 >/dev/null
census compute carl 0.16 4 >/dev/null
census note carl period-0-16 '0.16 period 149459 from 105351' >/dev/null
census note carl period-0-77 '0.77 period 24 from 71' >/dev/null
census note carl period-0-6 '0.16 period 149459 from 105351' >/dev/null
census games carl 0.16 0.77 0.6 >said
cmp said - <<'END'
0.16 known 5 no period blocks proved 1 refuted 0 pending 0 claims proved 0 refuted 0 pending 0
0.16 said: period 149459 from 105351, by 3
0.77 known 1 no period blocks proved 0 refuted 0 pending 0 claims proved 0 refuted 0 pending 0
0.6 known 1 no period blocks proved 0 refuted 0 pending 0 claims proved 0 refuted 0 pending 0
END
census note carl author-name 'C & "D"' >/dev/null
census games carl | tail -n 1 | cmp - <(echo '0.16 said: period 149459 from 105351, by 3 (C & "D")')
census games carl --json | cmp - <(echo '{"code":"0.16","known":5,"period":null,"blocks":{"proved":1,"refuted":0,"pending":0},"claims":{"proved":0,"refuted":0,"pending":0},"said":[{"period":149459,"from":105351,"author":3,"name":"C & \"D\""}]}')
test "$(count '"said":[{"author":3,"name":"C & \"D\"","period":149459,"start":105351}],"values"' json carl)" = 1
test "$(count '<p>said: period 149459 from 105351, by 3 (C &amp; &quot;D&quot;)</p>' report carl)" = 1
test "$(count '<br/>said: period 149459 from 105351, by 3 (C &amp; &quot;D&quot;)</th>' report carl)" = 1
test "$(count 'with a proved period' report carl)" = 1
census report carl | grep -qF '1 game, 0 with a proved period'
census site carl pages >/dev/null
test "$(grep -oF '<p>said: period 149459' pages/0.16.html | wc -l)" = 1
census games carl --no-period | head -n 1 | grep -qF '0.16 known 5 no period'
