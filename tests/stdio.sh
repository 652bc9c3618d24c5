#!/usr/bin/env bash
# Sessions over standard input and output, through two pipes as ssh lends them: what each side has is on both after one of them, and is
# confirmed in a second; a side that says something else, or ends, leaves the other as it was; four members at once lose nothing. Where
# an sshd is installed, a member whose key has the forced command of docs/GROUP.md can sync, and can do nothing else.
. "$(dirname "${BASH_SOURCE[0]}")/lib.sh"

mkfifo way

# A session of the state with that of a server, each over the streams of the other. Their lines are in `synced` and `served`.
meet() {
  census sync "${@:3}" --stdio "$1" < way 2> synced | census serve --stdio "$2" > way 2> served
}

census init group.state 1 > told
census init anna.state 2 > told
census init ben.state 3 > told
census compute anna.state 0.77 200 > told 2>&1
census note ben.state kayles 'octal code 0.77' > told

meet anna.state group.state
diff synced - <<< done
diff served - <<< done
meet ben.state group.state --quiet
test ! -s synced
diff served - <<< done
meet anna.state group.state
for state in anna ben group; do census digest "$state.state" | cut -c 1-64; done | sort -u > digests
test "$(wc -l < digests)" = 1

# With everything, whatever the other side says it has.
meet ben.state group.state --all
diff served - <<< done

# What is no session is refused, and the states are as they were.
cp anna.state before
for other in '' 'Welcome to hub.example.org!'; do
  if printf '%s' "$other" | census sync --stdio anna.state > sent 2> faults; then exit 1; fi
  grep -q '^census: Sync' faults
  test -s sent
  if printf '%s' "$other" | census serve --stdio anna.state > sent 2> faults; then exit 1; fi
  grep -q '^census: Sync' faults
  cmp anna.state before
done

# An address and the streams go ill together, and a state is needed.
for words in '--stdio' 'anna.state' '--stdio anna.state 127.0.0.1:4000'; do
  status=0
  census sync $words < /dev/null > told 2>&1 || status=$?
  test "$status" = 2
done
if census hub --stdio group.state < /dev/null > told 2>&1; then exit 1; fi

# Four at once, each with a server of its own over the one state of the group.
at_once() {
  census sync --stdio "member.$1" < "way.$1" 2> "synced.$1" | census serve --stdio group.state > "way.$1" 2> "served.$1"
}
meetings=()
for each in 4 5 6 7; do
  mkfifo "way.$each"
  census init "member.$each" "$each" > told
  census note "member.$each" "name-$each" 'said at once' > told
  at_once "$each" &
  meetings+=($!)
done
wait "${meetings[@]}"
census log group.state > log
for each in 4 5 6 7; do
  diff "synced.$each" - <<< done
  grep -q "name-$each" log
done

# An sshd of this user on the loopback, with a host's key, a member's, and a configuration of its own.
start_sshd() {
  local port
  port=$(free_port)
  ssh-keygen -q -t ed25519 -N '' -f host
  ssh-keygen -q -t ed25519 -N '' -f member
  make_command "$room"
  echo "command=\"cd '$room' && ./census serve --stdio group.state\",restrict $(cat member.pub)" > authorized
  printf '%s\n' "ListenAddress 127.0.0.1:$port" "HostKey $room/host" "AuthorizedKeysFile $room/authorized" "PidFile $room/sshd.pid" \
    'StrictModes no' 'UsePAM no' 'PasswordAuthentication no' 'AllowTcpForwarding yes' 'Subsystem sftp internal-sftp' > sshd_config
  "$sshd" -t -f sshd_config || return 1
  "$sshd" -D -e -f "$room/sshd_config" 2> sshd.told &
  await_port "$port" $!
  log_in=(ssh -F none -p "$port" -i member -o IdentitiesOnly=yes -o BatchMode=yes -o StrictHostKeyChecking=no
    -o UserKnownHostsFile=known -o ExitOnForwardFailure=yes -o LogLevel=ERROR 127.0.0.1)
}

by_ssh='no sshd is here, so ssh was left out'
sshd=$(PATH=$PATH:/usr/sbin:/usr/local/sbin command -v sshd || true)
if [ -n "$sshd" ] && start_sshd 2> faults; then
  census note anna.state over-ssh 'said over ssh' > told
  census sync --stdio anna.state < way 2> synced | "${log_in[@]}" > way 2> served
  diff synced - <<< done
  diff served - <<< done
  census log group.state | grep -q over-ssh

  # Whatever the member asks for, the forced command answers, and this is no session; there is no terminal, and no port leads through.
  cp group.state before
  for words in "'touch broken; cat group.state'" '-s sftp'; do
    status=0
    eval "${log_in[*]@Q} $words" < /dev/null > sent 2> served || status=$?
    test "$status" = 3
  done
  test ! -e broken
  if "${log_in[@]}" -tt sh < /dev/null > sent 2> served; then exit 1; fi
  grep -q '^PTY allocation request failed' served
  if "${log_in[@]}" -N -R "$(free_port):127.0.0.1:22" < /dev/null > sent 2> served; then exit 1; fi
  grep -q 'forwarding failed' served
  cmp group.state before
  by_ssh='so they do by ssh'
fi
echo "stdio: sessions over standard input and output bring all to both sides, and lose nothing; $by_ssh"
