#!/usr/bin/env bash
# Two states that used one number twice: `sync` says `done` and that they are apart; `sync --all` brings both to one set, in which the
# fork shows. And a `serve` whose state can't be saved: its `sync` is not told `done`, and the state is as it was.
# The connections are on the loopback, on free ports.
. "$(dirname "${BASH_SOURCE[0]}")/lib.sh"

# A session of the state that serves with the one that connects, which has more words. What both say is in `served` and `synced`,
# and what their exit statuses are in $serve and $sync.
session() {
  local port job
  port=$(free_port)
  "${program[@]}" serve "$1" "127.0.0.1:$port" >served 2>&1 & # it may be refused
  job=$!
  await_port "$port" "$job"
  sync=0 serve=0
  census sync "${@:3}" "$2" "127.0.0.1:$port" >synced 2>&1 || sync=$?
  wait "$job" || serve=$?
}

# A session in which both sides are done.
done_session() {
  session "$@"
  test "$serve $sync" = '0 0'
  test "$(cat served synced)" = $'done\ndone'
}

# Whether both states print one catalogue.
agree() {
  census show "$1" >one
  census show "$2" >two
  cmp -s one two
}

# ---- one number, used for two things

census init anna 3 >/dev/null
census init ben 3 >/dev/null
census init carl 4 >/dev/null
test "$(census note anna first 'of Anna')" = 'issued 3.1'
test "$(census note ben first 'of Ben')" = 'issued 3.1'
census note carl own 'of Carl' >/dev/null

# Each side has the number 3.1, so that neither sends it.
session anna ben
test "$serve $sync" = '0 1'
test "$(cat served synced)" = $'done\ndone\ncensus: Apart'
if agree anna ben; then exit 1; fi
if census show anna | grep -q fork; then exit 1; fi

# Where it is asked for, each side warns that its number is used twice.
cp anna anna.asked
cp ben ben.asked
export CENSUS_EXPLAIN=1
session ben.asked anna.asked --all
unset CENSUS_EXPLAIN
test "$serve $sync" = '0 0'
for told in served synced; do
  test "$(wc -l <$told)" = 2
  grep -q '^warning: 3\.1 is by your number and not from this state: ' $told
  grep -qx 'done' $told
done

# All goes both ways, with what only one of them has.
done_session anna carl
done_session ben anna --all
agree ben anna
census show anna >shown
grep -qx 'note first 3.1 of Anna' shown
grep -qx 'note first 3.1 of Ben' shown
grep -qx 'note own 4.1 of Carl' shown
grep -qx 'fork 3.1 contents 2' shown
cp shown before
done_session anna ben --all
agree anna ben
cmp -s one before

# A third who has neither note gets both from a plain session.
census init dora 5 >/dev/null
done_session anna dora
agree anna dora

# ---- a state that can't be saved

# Nothing stands where a new state is written before it takes the old one's place but a folder that can't go.
mkdir -p anna.new/full
cp anna kept
census note carl late 'of Carl' >/dev/null
for words in '' --all; do
  session anna carl $words
  test "$serve $sync" = '3 3'
  test "$(cat served)" = 'census: Occupied'
  test "$(cat synced)" = 'census: Sync Cut'
  cmp -s anna kept
done
rm -r anna.new
done_session anna carl --all
agree anna carl
census show anna | grep -qx 'note late 4.2 of Carl'
echo "sync --all brought both sides of a fork to one set, and what could not be saved was not confirmed"
