#!/usr/bin/env bash
# `census search --note` and `census recheck`: periods that no claim proves, as notes that are searched for again.
. "$(dirname "${BASH_SOURCE[0]}")/lib.sh"

census init anna 1 >/dev/null
census init ben 2 >/dev/null

# A long period is noted behind its line, and only once; a short one is for a claim.
census search 1000000 0.16 0.77 --note anna >said
cmp said - <<'END'
0.16 period 149459 from 105351 needs 509622 values 509622
issued 1.1
0.77 period 12 from 71 needs 168 values 195
END
census show anna | grep -F '0.16 period 149459 from 105351' | grep -Fc period-0-16 | cmp - <(echo 1)
census search 1000000 0.16 --note anna --at 5 >said
cmp said - <<'END'
0.16 period 149459 from 105351 needs 509622 values 509622
0.16 at 5 value 2
END
census recheck anna | cmp - <(echo '0.16 period 149459 from 105351 is so')

# So is a period that takes more than 65,536 values to prove, though neither it nor its start is above that.
census init cora 3 >/dev/null
census search 100000 0.127 --note cora >said
cmp said - <<'END'
0.127 period 4 from 46578 needs 93167 values 93167
issued 3.1
END
census recheck cora | cmp - <(echo '0.127 period 4 from 46578 is so')
census games cora | grep -Fc 'said: period 4 from 46578, by 3' | cmp - <(echo 1)

# Whoever issued it: what another one noted is not noted again.
census delta anna anna.delta >/dev/null
census merge ben anna.delta >/dev/null
cp ben before
census search 1000000 0.16 --window --note ben >/dev/null
cmp ben before

# What is not so, in the order of the notes; a name that is not as it is printed is nobody's.
census note ben period-0-77 '0.77 period 24 from 71' >/dev/null
census note ben period-0-6 '0.6 period 100 from 1' >/dev/null
census note ben period-0-07 'perhaps 34' >/dev/null
census note ben period-0-106 '0.106 period 328226140474 from 465384263797' >/dev/null
census note ben period-0-160 '0.16 period 1 from 1' >/dev/null
census note ben period '0.16 period 1 from 1' >/dev/null
status=0
census recheck ben >said || status=$?
[ $status = 1 ]
cmp said - <<'END'
note 2.3 says no period
0.106 period 328226140474 from 465384263797 needs more than 4294967296 values
0.16 period 149459 from 105351 is so
0.6 no period in 203 values, and not period 100 from 1
0.77 period 12 from 71, and not 24 from 71
END
census recheck ben 0.16 0.4 | cmp - <(echo '0.16 period 149459 from 105351 is so')
status=0
census recheck ben 0.77 >said || status=$?
[ $status = 1 ]
cmp said <(echo '0.77 period 12 from 71, and not 24 from 71')

# A note of the right name that says more, or another game's period, says none; one that was taken back is not read.
census note ben period-0-77 '0.77 period 12 from 71, by hand' >/dev/null
census note ben period-0-77 '0.07 period 34 from 53' >/dev/null
census note ben period-0-77 '0.77 period 012 from 71' >/dev/null
census recheck ben 0.77 >said || true
cmp said - <<'END'
0.77 period 12 from 71, and not 24 from 71
note 2.7 says no period
note 2.8 says no period
note 2.9 says no period
END
census unnote ben period-0-77 >/dev/null
census recheck ben 0.77 | cmp - /dev/null
census note ben period-0-77 '0.77 period 12 from 71' >/dev/null
census recheck ben 0.77 | cmp - <(echo '0.77 period 12 from 71 is so')

# A site with what is so as proved: the game's page and the index alone are other ones, and what is not so is told.
census init carl 3 >/dev/null
census search 1000000 0.16 --note carl >/dev/null
census note carl period-0-77 '0.77 period 70000 from 71' >/dev/null
census note carl period-0-77 '0.77 period 24 from 71' >/dev/null
census extend carl 200 0.16 0.77 >/dev/null
census site carl plain
status=0
census site carl checked --recheck >said 2>told || status=$?
[ $status = 1 ]
cmp said /dev/null
cmp told <(echo '0.77 period 12 from 71, and not 70000 from 71')
(diff -rq plain checked || true) | cmp - <(for page in 0.16 index; do echo "Files plain/$page.html and checked/$page.html differ"; done)
proved='<p>Proved by this program: from heap 105351 on the nim-values repeat with period 149459, for ever.</p>'
(diff plain/0.16.html checked/0.16.html || true) | sed 1d | cmp - <(printf '< <p>No period is proved.</p>\n---\n> %s\n' "$proved")
grep -c 'said: period 149459 from 105351, by 3' checked/0.16.html | cmp - <(echo 1)
grep -c 'said: period 70000 from 71, by 3' checked/0.77.html | cmp - <(echo 1)
grep -cF '<tr><th scope="row">149459</th><td>105351</td><td>0.16</td></tr>' checked/index.html | cmp - <(echo 1)
grep -cF '<caption>Periods proved by this program</caption>' checked/index.html | cmp - <(echo 1)
census site carl again --recheck 2>/dev/null || true
diff -r checked again
census site carl checked 2>told
cmp told /dev/null
diff -r plain checked
census unnote carl period-0-77 >/dev/null
census site carl checked --recheck 2>told
cmp told /dev/null
grep -qxF "$proved" checked/0.16.html

# A game of which a note alone says a long period has its line, its row and its page; one of a short period has none.
census init dora 3 >/dev/null
census note dora author-name 'Anna Berg' >/dev/null
census note dora period-0-16 '0.16 period 149459 from 105351' >/dev/null
census note dora period-0-77 '0.77 period 12 from 71' >/dev/null
census games dora >said
cmp said - <<'END'
0.16 known 1 no period blocks proved 0 refuted 0 pending 0 claims proved 0 refuted 0 pending 0
0.16 said: period 149459 from 105351, by 3 (Anna Berg)
END
census games dora --no-period --csv | tail -n 1 | tr -d '\r' | cmp - <(echo 0.16,1,,,,0,0,0,0,0,0)
census games dora --period 149459 | cmp - /dev/null
census json dora | grep -qF '"games":[{"blocks":[],"code":"0.16","known":1,"least_period":null,"periods":[],"said":[{"author":3,"name":"Anna Berg","period":149459,"start":105351}],"values":[0]}],'
census sqlite dora | grep -cF "INTO games VALUES('0.16',1,NULL,NULL,NULL);" | cmp - <(echo 1)
census report dora >page
grep -cF '<p>1 game, 0 with a proved period; 1 value known.</p>' page | cmp - <(echo 1)
grep -cF 'said: period 149459 from 105351, by 3' page | cmp - <(echo 2)
census site dora pages
grep -qF 'href="0.16.html"' pages/index.html
grep -qF '<p>1 value known: as a <a href="0.16.txt">b-file</a>' pages/0.16.html
grep -qF 'said: period 149459 from 105351, by 3' pages/0.16.html
census show dora | grep -v '^note\|^author' | cmp - <(printf '%s\n' 'census 2' end)
census extend dora 200 0.07 0.77 >/dev/null
census games dora | cut -d ' ' -f 1 | cmp - <(printf '%s\n' 0.07 0.16 0.16 0.77)
census json dora --only 0.16 | grep -qF '"games":[],'
census unnote dora period-0-16 >/dev/null
census games dora | cut -d ' ' -f 1 | cmp - <(printf '%s\n' 0.07 0.77)

# What is refused: before anything is searched, what is no state.
refused() {
  local due=$1 status=0
  shift
  census "$@" >said 2>fault || status=$?
  [ $status = "${due%% *}" ]
  cmp said /dev/null
  [ "$(head -n 1 fault)" = "census: ${due#* }" ]
}
echo anna >none
refused '1 Load Version' search 1000000 0.16 --note none
refused '1 Load Version' recheck none
refused '1 Load Version' site none unmade --recheck
[ ! -e unmade ]
refused '3 File' search 1000000 0.16 --note nowhere
refused '3 File' recheck nowhere
refused '1 Code Form' recheck anna 16
refused '2 Words' search 1000000 0.16 --note anna --json
refused '2 Words' search 1000000 0.16 --note anna --bfile
