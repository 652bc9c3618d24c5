# What tests/run and .ci/run share: the list of the tests, and how parts are run one after another.

# The tests that need no kit, a line each: two of what the documents name, and those that run the program. The last three have a
# short form, and a long one, which they take where the word here is --long.
tests_of() {
  printf '%s\n' 'tests/contracts.py --check' tests/cited.py
  printf '%s\n' tests/{session,survey,log,status,written,noted,withdrawn,left,cluster,at_once,group,stdio,sockets,hub,all,numbers,plot,manual,released,git}.sh
  printf '%s\n' tests/{saved,files,beside,faults,verdicts,terminal,memory,crowd,strangers,limits,apart,hostile,resumed,moves,pages,sqlite,bfiles,web,look,stopped}.py
  printf '%s\n' tests/{crash,worst,search}.py"${1:+ $1}"
}

# The time so far, in minutes and seconds.
so_far() {
  printf '%d:%02d' $((SECONDS / 60)) $((SECONDS % 60))
}

# Runs the parts, each of them a command, until one fails. Each says when it begins. At the end stand the time by the clock, the ten
# parts that took the processors longest, and what all took of them together.
run_parts() {
  local at took all=() TIMEFORMAT='%U %S'
  for ((at = 1; at <= $#; at++)); do
    echo "== $(so_far)  $at of $#: ${!at}"
    # The time is on a stream of its own, past which goes what the part says.
    if ! { took=$({ time ${!at} >&3 2>&4; } 2>&1); } 3>&1 4>&2; then
      echo "== $(so_far)  ${!at} failed" >&2
      return 1
    fi
    all+=("$took ${!at}")
  done
  echo "== $(so_far)  all $# parts passed; the dearest, in seconds of the processors:"
  printf '%s\n' "${all[@]}" |
    awk '{ took = $1 + $2; sub(/^[^ ]+ [^ ]+ /, ""); printf "%10.1f  %s\n", took, $0 }' | sort -rn | head -n 10
  printf '%s\n' "${all[@]}" |
    awk '{ user += $1; kernel += $2 } END { printf "%10.1f  together: %.1f of the user, %.1f of the system\n", user + kernel, user, kernel }'
}
