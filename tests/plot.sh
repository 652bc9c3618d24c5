#!/usr/bin/env bash
# Pictures of some heaps of Kayles, whose nim-values were worked out by hand up to heap 12, and repeat with period 12 from heap 71 on:
# the points, the ticks and the title of the heaps 3 to 10; ticks that stand apart; runs of the period that are cut, and those that
# lie outside; and heaps that are refused.
. "$(dirname "${BASH_SOURCE[0]}")/lib.sh"

# The picture has this line once.
has() {
  test "$(grep -cxF -- "$1" picture)" = 1
}

# So many lines of the picture have this text.
counts() {
  test "$(grep -cF -- "$2" picture || true)" = "$1"
}

# The ticks of the heaps, each as its place and its heap.
ticks() {
  sed -n 's|^<path d="M\([0-9]*\) 0v6"/><text x="\([0-9]*\)" y="26">\([0-9]*\)</text>$|\1 \2 \3|p' picture
}

census init state 1 >/dev/null
census compute state 0.77 12 >/dev/null

# Heaps 3 to 10 have the values 3 1 4 3 2 1 4 2: heap n stands at 100 (n - 3) of 700, its value v at 80 v of 320, and the points at
# twice as much, row by row from below.
census plot state 0.77 --from 3 --to 10 >picture
has '<text class="title" x="0" y="-340">0.77: nim-values of heaps 3 to 10</text>'
counts 1 '<title id="plot-0.77">0.77: nim-values of heaps 3 to 10</title>'
grep -qF 'd="M200 160h800M800 320h600M0 480h600M400 640h800"/>' picture
ticks | diff - <(for heap in 3 4 5 6 7 8 9 10; do echo "$(((heap - 3) * 100)) $(((heap - 3) * 100)) $heap"; done)
for value in 0 1 2 3 4; do
  has "<path d=\"M0 -$((value * 80))h-6\"/><text class=\"value\" x=\"-12\" y=\"-$((value * 80))\" dy=\"6\">$value</text>"
done
counts 0 rect

# One heap, whose value is 4: the axis goes on to the next.
census plot state 0.77 --from 5 --to 5 >picture
has '<text class="title" x="0" y="-340">0.77: nim-values of heaps 5 to 5</text>'
grep -qF 'd="M0 640"/>' picture
ticks | diff - <(printf '%s\n' '0 0 5' '700 700 6')

# Of a game of which nothing was said the value of heap 0 is known, which has no beans.
census plot state 0.07 --to 3 >picture
has '<text class="title" x="0" y="-340">0.07: nim-values of heaps 0 to 0</text>'

# Where one is left out, the heaps begin with 0, or end with the last known one, which is the end of those that go beyond.
census plot state 0.77 --to 10 >picture
has '<text class="title" x="0" y="-340">0.77: nim-values of heaps 0 to 10</text>'
census plot state 0.77 --from 3 >picture
has '<text class="title" x="0" y="-340">0.77: nim-values of heaps 3 to 12</text>'
census plot state 0.77 --from 3 --to 18446744073709551615 | cmp - picture
census plot state 0.77 >all
census plot state 0.77 --from 0 --to 12 | cmp - all
census plot state 0.77 --from 0 | cmp - all

# No heap is before the first, and the first has to be known.
refused 2 Number plot state 0.77 --from 5 --to 4
refused 2 Number plot state 0.77 --from 13
refused 2 Number plot state 0.77 --from 18446744073709551615
refused 2 Number plot state 0.07 --from 1
refused 2 Number plot state 0.77 --from 3x
refused 2 Number plot none 0.77 --from 5 --to 4
refused 1 'Code Digit' plot state 0.8 --from 13
refused 3 File plot none 0.77 --from 4

# Of 200 known values: the ticks of 7 to 30, an axis of 23 heaps, are multiples of 5, each rounded down to its place.
census extend state 200 0.77 >/dev/null
census plot state 0.77 --from 7 --to 30 >picture
ticks | diff - <(printf '%s\n' '91 91 10' '243 243 15' '395 395 20' '547 547 25' '700 700 30')
has '<text class="title" x="0" y="-340">0.77: nim-values of heaps 7 to 30, period 12 from 71</text>'
counts 0 '<rect'
counts 0 'class="start"'

# The first two runs are 71 to 82 and 83 to 94: of the heaps 75 to 99, 24 apart, the first is seen up to 83, 8 of 24, and the second
# from there to 95, 20 of 24.
census plot state 0.77 --from 75 --to 99 >picture
has '<text class="title" x="0" y="-340">0.77: nim-values of heaps 75 to 99, period 12 from 71</text>'
has '<rect class="period" x="0" y="-320" width="233" height="320"/>'
has '<rect class="again" x="233" y="-320" width="350" height="320"/>'
counts 0 'class="start"'

# Of 61 to 81, 20 apart, the first alone, from 71 on.
census plot state 0.77 --from 61 --to 81 >picture
has '<rect class="period" x="350" y="-320" width="350" height="320"/>'
has '<path class="start" d="M350 0V-320"/>'
counts 1 '<rect'

# Behind both there is no shade; what is proved is said all the same.
census plot state 0.77 --from 95 --to 120 >picture
counts 0 '<rect'
counts 1 'From heap 71 on the nim-values repeat with period 12, for ever:'

# Where no heaps are named, the picture ends with the second run, as that of heaps 0 to 94; all 200 are there for who asks.
census plot state 0.77 >picture
has '<text class="title" x="0" y="-340">0.77: nim-values of heaps 0 to 94, period 12 from 71</text>'
census plot state 0.77 --to 94 | cmp - picture
census plot state 0.77 --from 0 >picture
has '<text class="title" x="0" y="-340">0.77: nim-values of heaps 0 to 199, period 12 from 71</text>'

# The picture of a site is the same, and its words beside it name the same heaps.
census site state folder >/dev/null
census plot state 0.77 | cmp - folder/0.77.svg
grep -q 'alt="0\.77: nim-values of heaps 0 to 94, period 12 from 71\. ' folder/0.77.html

echo 'pictures of some heaps, with their ticks, runs and refusals'
