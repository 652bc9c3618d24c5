#!/usr/bin/env bash
# Sessions over a socket of this machine: with a hub and with `serve`; who may connect; what stands at the path before; and that the
# socket goes in the end. The unit of docs/GROUP.md, for systemd.
. "$(dirname "${BASH_SOURCE[0]}")/lib.sh"

census init group.state 1 > told
census init anna.state 2 > told
census init ben.state 3 > told
census note anna.state kayles 'octal code 0.77' > told

# Waits until a socket stands at the path, whose maker runs.
await_socket() {
  for _ in {1..400}; do
    if [ -S "$1" ]; then return; fi
    kill -0 "$2"
    sleep 0.05
  done
  return 1
}

# A hub at a socket, with more words; its job is $hub.
start_at() {
  : > served
  census hub group.state --unix "$@" > served 2> faults &
  hub=$!
  await served 1 "listening on $1"
}

# A hub can't listen at the path.
no_hub_at() {
  local status=0
  census hub group.state --unix "$1" > told 2> refused.err || status=$?
  test "$status" = 3
  test "$(head -n 1 refused.err)" = 'census: Net'
}

# It is the user's own.
start_at 'the group.sock' --peers 3
test "$(stat -c '%F %a' 'the group.sock')" = 'socket 600'
test "$(census sync anna.state --unix 'the group.sock')" = 'done'
test "$(census sync ben.state --unix 'the group.sock')" = 'done'
census show ben.state | grep -qx 'note kayles 2.1 octal code 0.77'
await served 1 '.* peer local new 0 operations 1 digest '
# Another one can't listen there, and what stands there stays.
no_hub_at 'the group.sock'
test -S 'the group.sock'
test "$(census sync anna.state --unix 'the group.sock')" = 'done'
wait "$hub"
test ! -e 'the group.sock'
test ! -s faults

# `serve` meets one, with the permissions that are said.
census serve group.state --unix one.sock --mode 660 > served 2> faults &
serve=$!
await_socket one.sock "$serve"
test "$(stat -c %a one.sock)" = 660
test "$(census sync ben.state --unix one.sock)" = 'done'
wait "$serve"
test "$(cat served)" = 'done'
test ! -e one.sock

# A socket that a killed hub left is replaced; a file or a folder is not.
start_at left.sock
kill -KILL -- "-$hub"
wait "$hub" 2> told || true
test -S left.sock
refused 3 Net sync anna.state --unix left.sock
start_at left.sock --peers 1
test "$(census sync anna.state --unix left.sock)" = 'done'
wait "$hub"
echo kept > file
mkdir folder
for path in file folder missing/socket; do no_hub_at "$path"; done
test "$(cat file)" = kept
refused 3 Net sync anna.state --unix missing

# A `sync` waits for a hub that is just starting.
census sync anna.state --unix late.sock > synced &
sync=$!
sleep 0.3
start_at late.sock --peers 1
wait "$sync" "$hub"
test "$(cat synced)" = 'done'

# Words that go ill together, and permissions that are none.
ill() {
  local status=0
  census "$@" < /dev/null > told 2> refused.err || status=$?
  test "$status" = 2
}
ill sync --stdio anna.state --unix one.sock
ill sync anna.state 127.0.0.1:1 --unix one.sock
ill hub group.state 127.0.0.1:0 --unix one.sock
ill hub group.state
for mode in 6000 68 '' 0o6 -1; do
  ill hub group.state --unix one.sock "--mode=$mode"
  test "$(head -n 1 refused.err)" = 'census: Number'
done

# The unit of docs/GROUP.md is one that systemd takes, without a word, where the command is that of this test.
if command -v systemd-analyze > told; then
  make_command "$room"
  awk '$0 == "    [Unit]" { on = 1 } on && !/^(    |$)/ { exit } on' "$top/docs/GROUP.md" |
    sed "s/^    //; s:^ExecStart=/usr/local/bin/census:ExecStart=$room/census:" > census-hub.service
  grep -q "^ExecStart=$room/census hub" census-hub.service
  systemd-analyze verify "$room/census-hub.service" 2>&1 | diff /dev/null -
fi
echo 'sockets: sessions over a socket of this machine bring all to both sides, for whom they are open'
