#!/usr/bin/env bash
# Commands at once, peers that fail, and files of every kind: fifty notes issued at once are all there; what is issued while a
# session waits or runs is there after it; a hub says which peers were silent, sent rubbish or were cut off, and serves the next; a
# state keeps its mode, and a link stays a link; a delta is not written over its state.
# The connections are on the loopback, on free ports.
. "$(dirname "${BASH_SOURCE[0]}")/lib.sh"

fifty_notes() {
  census init one 1 >/dev/null
  local turn jobs=()
  for turn in {1..50}; do
    census note one "note-$turn" "text $turn" >"issued.$turn" &
    jobs+=($!)
  done
  for turn in "${jobs[@]}"; do wait "$turn"; done
  seq -f 'issued 1.%.0f' 50 | diff - <(sort -V issued.*)
  for turn in {1..50}; do
    census show one | grep -qx "note note-$turn $(sed 's/issued //' "issued.$turn") text $turn"
  done
  census show one | grep -qx 'author 1 through 50 last 50'
}

# A note that is issued while `serve` waits.
while_it_serves() {
  census init two 2 >/dev/null
  census init three 3 >/dev/null
  census note three from three >/dev/null
  local serve port
  port=$(free_port)
  census serve two "127.0.0.1:$port" >waited &
  serve=$!
  await_port "$port" "$serve"
  census note two from two >/dev/null
  test "$(census sync three "127.0.0.1:$port")" = 'done'
  wait "$serve"
  census show two >catalogue
  grep -qx 'note from 2.1 two' catalogue
  grep -qx 'note from 3.1 three' catalogue
}

# A note that is issued after a hub has told a peer what it has, and before that peer has ended.
while_a_session_runs() {
  start_hub two --peers 1
  exec 3<>"/dev/tcp/${address%:*}/${address##*:}"
  printf '\0\0\0\5\1\0\0\0\0' >&3 # a clock that covers nothing
  head -c 5 <&3 >/dev/null
  census note two meanwhile two >/dev/null
  printf '\0\0\0\1\3' >&3 # the end
  wait "$hub"
  exec 3>&-
  census show two | grep -qx 'note meanwhile 2.2 two'
}

# Peers that are silent, send rubbish, or are cut off in the middle; each is followed by one that is served.
bad_peers() {
  census init hub 9 >/dev/null
  start_hub hub --patience 1 --peers 6
  local host=${address%:*} port=${address##*:} turn
  (
    exec 3<>"/dev/tcp/$host/$port" # silent
    sleep 5
  ) &
  await faults 1 'census: [^ ]* peer '
  served_next 1
  printf 'GET / HTTP/1.0\r\n\r\n' >rubbish
  cat rubbish >"/dev/tcp/$host/$port" # in one write: the hub closes the connection at the first bytes that are no frame
  await faults 2 'census: [^ ]* peer '
  served_next 2
  printf '\0\0\0\x05\x01\0\0' >"/dev/tcp/$host/$port" # a clock that breaks off
  await faults 3 'census: [^ ]* peer '
  served_next 3
  wait "$hub"
  test "$(grep -c '^census: [^ ]* peer 127.0.0.1:[0-9]* Sync [A-Z][a-z]*$' faults)" = 3
  grep -q ' Sync Frame$' faults
  grep -q ' Sync Cut$' faults
  test "$(grep -c '^[^ ]* peer 127.0.0.1:[0-9]* new [0-9]* operations [0-9]* digest ' served)" = 3
  census show hub | grep -qx 'author 3 through 4 last 4'
}

served_next() {
  census note three turn "$1" >/dev/null
  test "$(census sync three "$address")" = 'done'
  await served "$1" '[^ ]* peer '
}

# A state of one's own that is a link, written by each kind of command.
modes_and_links() {
  mkdir folder
  census init folder/real 4 >/dev/null
  chmod 600 folder/real
  ln -s folder/real link
  census note link a b >/dev/null
  census compute link 0.77 10 >/dev/null
  census delta three delta >/dev/null
  census merge link delta >/dev/null
  start_hub link --peers 1
  census note three last one >/dev/null
  test "$(census sync three "$address")" = 'done'
  wait "$hub"
  test -L link
  test "$(readlink link)" = folder/real
  test "$(stat -c %a folder/real)" = 600
  census show folder/real | grep -qx 'note last 3.5 one'
  census show folder/real | cmp - <(census show link)
  test ! -e link.new
  test ! -e link.lock
  test ! -e folder/real.new
}

a_delta_over_its_state() {
  cp one before
  ln one same
  ln -s one there
  local path
  for path in one ./one same there; do
    refused 3 Same delta one "$path"
    cmp one before
  done
}

fifty_notes
while_it_serves
while_a_session_runs
bad_peers
modes_and_links
a_delta_over_its_state
echo "fifty notes at once, three peers that fail, modes, links and deltas over a state: each is answered as it should be"
