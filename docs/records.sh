#!/usr/bin/env bash
# What is known of the periods of all games of at most DIGITS digits after the point, with no head, by COUNT values:
#
#     docs/records.sh FOLDER COUNT DIGITS
#
# Each game is searched on its own, with a minute of processor time. A file for each search stands in FOLDER, so that the same line
# again does what is missing; at the end the tables are printed that RECORDS.md has. CENSUS names the program, and PROCESSES how
# many run at once. All games of four digits take some twenty minutes of one processor by 65,536 values.
set -euo pipefail

folder=$1 count=$2 digits=$3
mkdir -p "$folder"
export CENSUS=${CENSUS:-census} folder count

# search CODE: the line of the program, or that it was stopped, and behind it the seconds. Any other end leaves no file.
search() {
  local file=$folder/$count-$1 status=0 TIMEFORMAT=%U
  [ -s "$file" ] && return
  { time bash -c 'ulimit -S -t 60; exec "$CENSUS" search "$@"' census "$count" "$1"; } >"$file.new" 2>&1 || status=$?
  case $status in
    0) tr '\n' ' ' <"$file.new" >"$file" ;;
    152) echo "$1 stopped $(tail -n 1 "$file.new")" >"$file" ;; # by the limit
    *) cat "$file.new" >&2 && false ;;
  esac
  rm -f "$file.new"
}
export -f search

codes() {
  local at last front=('')
  for ((at = 1; at <= digits; at++)); do
    mapfile -t front < <(for last in {0..7}; do printf '%s\n' "${front[@]/%/$last}"; done | sort)
    printf '0.%s\n' "${front[@]}" | grep -v '0$'
  done
}

told() {
  codes | while read -r code; do
    cat "$folder/$count-$code"
    echo
  done
}

# listed PATTERN: the games of whose lines it is a part.
listed() {
  told | awk -v part="$1" 'index($0, part) { print $1 }' | paste -sd, | sed 's/,/, /g' | fold -sw 100
}

codes | xargs -P "${PROCESSES:-1}" -I{} bash -c "search {}"

printf '| Digits | Codes | A period is proved | None | Stopped after a minute | The most values that prove one |\n|---|---|---|---|---|---|\n'
told | awk '
  { at = length($1) - 2; all[at]++ }
  $2 == "period" { found[at]++; if ($7 > most[at]) most[at] = $7 }
  $2 == "no" { none[at]++ }
  / stopped / { stopped[at]++ }
  END { for (at = 1; at in all; at++) print "| " at " | " all[at] " | " found[at] + 0 " | " none[at] + 0 " | " stopped[at] + 0 " | " most[at] " |" }'
printf '\nPeriods that more than 65,536 values prove:\n\n| Code | Period | From heap | Values that prove it | Seconds |\n|---|---|---|---|---|\n'
told | awk '$2 == "period" && $7 > 65536 { print "| " $1 " | " $3 " | " $5 " | " $7 " | " $NF " |" }'
printf '\nNone in %s values:\n\n' "$count"
listed ' no period '
printf '\nStopped after a minute:\n\n'
listed ' stopped '
