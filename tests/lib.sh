# What the tests share that are shell scripts. Each begins with
#
#     . "$(dirname "${BASH_SOURCE[0]}")/lib.sh"
#
# It then stands in an empty folder of its own. The folder goes when the script ends, and so does what it has left running. A
# command that fails ends the script, which says where; so do two minutes. The words of the script are the program to try, and
# words that it is given before all others; where there are none, it is the one that dist/program names.
set -Eeuo pipefail
top=$(cd "$(dirname "${BASH_SOURCE[0]}")/.." && pwd)
name=$(basename "$0" .sh)
if [ $# = 0 ]; then
  ready=$("$top/dist/program" --ready)
  set -- "$ready"
fi
program=("$(realpath -s "$(command -v "$1")")" "${@:2}")

# Each background job has a process group of its own, so that it ends as a whole.
set -m
room=$(mktemp -d)
cd "$room"

clean() {
  local job
  exec 2>/dev/null # on which it would be said that a job was killed
  for job in $(jobs -p); do kill -KILL -- "-$job" || true; done
  wait || true
  rm -rf "$room"
}
trap clean EXIT

# Says which command failed, and what others had said by then.
failed() {
  echo "$name: this failed, at $1" >&2
  local told
  for told in "$room"/{served,synced,faults}; do
    if [ -s "$told" ]; then tail "$told" >&2; fi
  done
}
trap 'failed "${BASH_SOURCE[0]##*/}, line $LINENO: $BASH_COMMAND"' ERR

# The processes that this one has started, and those that they have.
started_by() {
  local each
  for each in $(pgrep -P "$1"); do
    started_by "$each"
    echo "$each"
  done
}

# The two minutes. Bash looks at its signal only when the command has ended that it waits for, so what is running is killed too.
trap 'echo "$name: it took more than two minutes" >&2; exit 1' TERM
(
  clock=$BASHPID
  sleep 120
  kill -TERM $$
  kill -KILL $(started_by $$ | grep -vx "$clock")
) >/dev/null 2>&1 &

# Runs the program with these words.
census() {
  "${program[@]}" "$@"
}

# The command is refused: its exit status is the first word here, and it prints nothing but the line of this fault.
refused() {
  local status=0
  census "${@:3}" >refused.out 2>refused.err || status=$?
  test "$status" = "$1"
  test "$(cat refused.err)" = "census: $2"
  test ! -s refused.out
}

# Makes the program a command of the folder that is called census.
make_command() {
  printf '#!/usr/bin/env bash\nexec %s "$@"\n' "${program[*]@Q}" >"$1/census"
  chmod +x "$1/census"
}

# Whether somebody listens on the port.
listens() {
  grep -qi ": 0100007F:$(printf %04X "$1") [0-9A-F:]* 0A" /proc/net/tcp
}

# A port of the loopback on which nobody listens.
free_port() {
  local port
  while port=$((20000 + RANDOM % 10000)) && listens "$port"; do :; done
  echo "$port"
}

# Waits until somebody listens on the port, as long as the job runs that is to do so.
await_port() {
  until listens "$1"; do
    kill -0 "$2"
    sleep 0.05
  done
}

# Waits until the file has so many lines that begin with the words.
await() {
  until [ "$(grep -c "^$3" "$1")" -ge "$2" ]; do sleep 0.05; done
}

# Starts a hub on a state, with more words; its address is then $address and its job $hub. What it says is in served and faults.
start_hub() {
  : >served # what an earlier hub said there
  census hub "$1" 127.0.0.1:0 "${@:2}" >served 2>faults &
  hub=$!
  await served 1 'listening on '
  address=$(sed -n 's/^listening on //p' served)
}
