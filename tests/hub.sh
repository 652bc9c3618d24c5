#!/usr/bin/env bash
# What a hub keeps of its state: a session that brings nothing leaves the file as it is, with its inode and its time; what other
# commands add meanwhile is given to the next peer; what a session brings is in the file after it, also where it ended by a fault;
# and a file that is gone, or is another one, is seen by the next peer.
# The connections are on the loopback, on a free port.
. "$(dirname "${BASH_SOURCE[0]}")/lib.sh"

# How many lines the file has.
count() {
  wc -l <"$1"
}

# How many faults of peers are said there, each of which is explained in further lines.
said() {
  grep -c "^census: $stamp peer " "$1" || true
}

# Which file the hub's state is, and when it was last written and changed.
identity() {
  stat -c '%d %i %s %y %z' hub
}

# An exchange of Anna's, after which the hub says this of it, with the time and the digest of its state, and by whom what is new is.
exchange() {
  local turn=$(count served) # the first line says where it listens
  test "$(census sync anna "$address")" = 'done'
  await served "$turn" "$stamp peer "
  grep -qx "$stamp peer 127.0.0.1:[0-9]* $1 digest $(census digest hub | cut -c -8)${2:-}" <(tail -n 1 served)
}

# A peer that sends these bytes, whose fault the hub says; it closes the connection before that, or else after it. The bytes go
# out in one write, since the hub may close the connection at the first of them that is no frame.
broken() {
  local turn=$(($(said faults) + 1))
  printf "$2" >sent
  exec 3<>"/dev/tcp/${address%:*}/${address##*:}"
  cat sent >&3
  if [ "$1" = closed ]; then exec 3>&-; fi
  await faults "$turn" "census: $stamp peer "
  if [ "$1" = open ]; then exec 3>&-; fi
}

# Bytes as printf takes them, and a number as four.
escaped() {
  od -An -v -tx1 "$@" | tr -d '\n' | sed 's/ /\\x/g'
}
four() {
  printf '\\x%02x' $(($1 >> 24 & 255)) $(($1 >> 16 & 255)) $(($1 >> 8 & 255)) $(($1 & 255))
}

clock='\0\0\0\5\1\0\0\0\0' # one that covers nothing
stamp='[0-9-]*T[0-9:]*Z'         # a time
census init hub 9 >/dev/null
census init anna 1 >/dev/null
census note hub first 'of the hub' >/dev/null
start_hub hub --peers 14 --patience 20

# The peer takes what the hub has, and brings nothing; and once more, where neither has anything new.
before=$(identity)
exchange 'new 0 operations 1'
census show anna | grep -qx 'note first 9.1 of the hub'
exchange 'new 0 operations 1'
# Peers that send nothing, rubbish, or a clock alone.
broken closed ''
broken open 'GET / HTTP/1.0\r\n\r\n'
broken closed "$clock"
test "$(identity)" = "$before"

# What another command adds while the hub runs is given to the next peer, who brings nothing again.
census note hub second 'of the hub' >/dev/null
before=$(identity)
exchange 'new 0 operations 2'
census show anna | grep -qx 'note second 9.2 of the hub'
test "$(identity)" = "$before"

# What a peer brings is in the file after its session; the next one brings nothing.
census note anna own 'of Anna' >/dev/null
exchange 'new 1 operations 3' '; 1 by 1'
test "$(identity)" != "$before"
census show hub | grep -qx 'note own 1.1 of Anna'
before=$(identity)
exchange 'new 0 operations 3'
test "$(identity)" = "$before"

# Also where the session ends by a fault: a clock, a delta with a note of Ben's, and a length that no frame has.
census init ben 2 >/dev/null
census note ben cut 'of Ben' >/dev/null
census delta ben ben.delta >/dev/null
broken open "$clock$(four $(($(stat -c %s ben.delta) + 1)))\\2$(escaped ben.delta)\\377\\377\\377\\377"
census show hub | grep -qx 'note cut 2.1 of Ben'
before=$(identity)
exchange 'new 0 operations 4'
census show anna | grep -qx 'note cut 2.1 of Ben'
test "$(identity)" = "$before"

# A state that is gone is a fault for the peer, and nothing is made in its place; with the file, all is as before.
mv hub away
if census sync anna "$address" 2>refused; then exit 1; fi
await faults 5 "census: $stamp peer "
grep "^census: $stamp peer " faults | tail -n 1 | grep -q ' File$'
test ! -e hub
mv away hub
exchange 'new 0 operations 4'

# Another file in its place is read, be it an older one of the same state.
census note anna late 'of Anna' >/dev/null
cp hub older
exchange 'new 1 operations 5' '; 1 by 1'
mv older hub
exchange 'new 1 operations 5' '; 1 by 1'
census show hub | grep -qx 'note late 1.2 of Anna'

wait "$hub"
test "$(said faults)" = 5
census show anna >catalogue
census show hub | diff - catalogue
echo "a hub wrote its state where a session brought something, and read it again where it was another file"
