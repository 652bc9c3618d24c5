#!/usr/bin/env bash
# Plays the example sessions of docs/TUTORIAL.md and of the README with the program, each in a folder of its own, and says whether
# each line is printed as it stands in session.txt and there; `..` in the README stands for lines that it leaves out. The
# connection is on the loopback, on a free port, which is printed as 4000.
. "$(dirname "${BASH_SOURCE[0]}")/lib.sh"

# Does a line of the session, which it prints first.
play() {
  local port=$1 line=$2
  printf '$ %s\n' "$line"
  line=${line//:4000/:$port}
  case $line in
    *'&')
      timeout 60 bash -c "${line%&}" >served 2>&1 &
      await_port "$port" $! ;;
    *)
      timeout 60 bash -c "$line" 2>&1 || true ;;
  esac
  if [[ $line == *" sync "* ]]; then
    wait
    cat served
  fi
}

# Plays the lines of a session that begin with a dollar, in a folder.
played() {
  local port line
  port=$(free_port)
  mkdir -p "$room/$2"
  cd "$room/$2"
  export PATH=$PWD:$PATH
  make_command .
  while read -r line; do
    if [[ $line == '$ '* ]]; then play "$port" "${line#\$ }"; fi
  done <"$1"
}

# A session that a document shows: the lines from this command on, until one that is not set apart.
shown() {
  awk -v first="    $ census $2" 'index($0, first) == 1 { on = 1 } on && !/^    / { exit } on { print substr($0, 5) }' "$1"
}

session=$top/examples/session.txt
(played "$session" long) >played
diff "$session" played
shown "$top/docs/TUTORIAL.md" 'init anna' | diff "$session" -

shown "$top/README.md" 'init anna' >short.txt
(played "$room/short.txt" short) >played
front=$(sed '/^\.\.$/,$d' short.txt | wc -l)
back=$(sed '1,/^\.\.$/d' short.txt | wc -l)
test "$front" -gt 0 && test "$back" -gt 0
{ head -n "$front" played; echo ..; tail -n "$back" played; } | diff short.txt -

shown "$top/docs/TUTORIAL.md" 'search 1000000 0.16 --note anna' >noted.txt
(played "$room/noted.txt" long) | diff noted.txt -
shown "$top/docs/TUTORIAL.md" 'bfile anna' >published.txt
(played "$room/published.txt" long) | diff published.txt -
cmp long/kayles.svg "$top/docs/kayles.svg"
(cd short && census plot anna.state 0.77 --from 0 --to 168) | cmp - "$top/docs/kayles.svg"
grep -qF '`census plot anna.state 0.77 --from 0 --to 168` drew' "$top/README.md"
echo "the example sessions are as they stand, and so is the picture of the README"
