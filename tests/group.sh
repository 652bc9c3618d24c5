#!/usr/bin/env bash
# Six people issue notes, blocks and removals, each on a state of their own, and exchange with one hub while the others do so too;
# each goes on issuing while the own exchange runs, and notes are issued on the hub's state while it serves. After one last round
# all seven hold the same: equal catalogues, each operation that a command said it issued, none besides, and no fork.
# The connections are on the loopback, on a free port.
. "$(dirname "${BASH_SOURCE[0]}")/lib.sh"
people=(1 2 3 4 5 6)
turns=10
sessions=$((${#people[@]} * (turns + 2)))

# Runs a command that issues an operation, and keeps what it says.
issue() {
  census "$@" >>"issued.$2"
}

# Takes back the notes of a name that all use, unless another has done so.
take_back() {
  census unnote "$1" "$2" >>"issued.$1" 2>"refused.$1" || grep -qx 'census: Removal NoNote' "refused.$1"
}

# Exchanges all that is new with the hub.
exchange() {
  census sync "$1" "$address" >"synced.$1" && grep -qx 'done' "synced.$1"
}

# What one person does: in each turn an exchange, and four or five operations meanwhile.
person() {
  local state=$1 turn
  for ((turn = 1; turn <= turns; turn++)); do
    exchange "$state" &
    issue note "$state" "own-$state" "turn $turn"
    issue note "$state" all "turn $turn of $state"
    issue compute "$state" 0.77 50
    issue import "$state" "$top/examples/dawson.json"
    if ((turn % 2)); then issue unnote "$state" "own-$state"; else take_back "$state" all; fi
    wait $!
  done
}

# What happens on the hub's own state while it serves.
host() {
  local turn
  for ((turn = 1; turn <= 2 * turns; turn++)); do issue note 7 hub "turn $turn"; done
}

census init 7 7 >/dev/null
for who in "${people[@]}"; do census init "$who" "$who" >/dev/null; done
start_hub 7 --peers "$sessions" --patience 20

jobs=()
for who in "${people[@]}"; do
  person "$who" &
  jobs+=($!)
done
host &
jobs+=($!)
for job in "${jobs[@]}"; do wait "$job"; done
# The last round: all bring what they have, and then all fetch it.
for who in "${people[@]}" "${people[@]}"; do exchange "$who"; done
wait "$hub"

test ! -s faults
test "$(grep -cE '^[0-9-]+T[0-9:]+Z peer 127.0.0.1:[0-9]+ new [0-9]+ operations [0-9]+ digest [0-9a-f]{8}($|;)' served)" = "$sessions"
for who in 7 "${people[@]}"; do
  census show "$who" >"catalogue.$who"
  cmp catalogue.7 "catalogue.$who"
done
if grep -E '^fork | refuted | pending' catalogue.7; then exit 1; fi
all=$(cat issued.* | wc -l)
test "$(census delta 7 delta)" = "operations $all"
for who in 7 "${people[@]}"; do
  count=$(wc -l <"issued.$who")
  seq -f "issued $who.%.0f" "$count" | diff - <(sort -V "issued.$who")
  grep -qx "author $who through $count last $count" catalogue.7
done
echo "seven states hold the same $all operations after $sessions exchanges with one hub, each that was issued, and no fork"
