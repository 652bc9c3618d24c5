#!/usr/bin/env bash
# Many games on many processors, by the job and the Makefile of docs/CLUSTER.md: 63 games in five parts, under a loop, xargs and make,
# and under GNU parallel and Slurm where they are installed. Under each, one part is killed on its way, one is lost and comes again, and
# one is handed in twice; files are joined in any order. There is one digest, and what one survey says. Parts that are given to a hub
# stay parts. What is done costs nothing again, by the time of the processor.
. "$(dirname "${BASH_SOURCE[0]}")/lib.sh"
. "$top/tests/slurm.sh"

# The block of the document whose first line is this, by its first sign behind the four spaces of the indent.
block() {
  awk -v first="$1" 'index($0, "    " first) == 1 { on = 1 } on && !/^    / { exit } on' "$top/docs/CLUSTER.md" | sed 's/^    //'
}

block '#!/usr/bin/env bash' > job
chmod +x job
block 'N = 64' > Makefile
printf '0.%s\n' {1..7} {0..7}{1..7} > codes
test "$(wc -l < job)" -ge 6
grep -q "$(printf '\t')./job codes" Makefile

# The command of the jobs. The first survey of part 2 says a few of its games, and is then killed with its job.
mkdir bin
make_command bin
mv bin/census bin/real
cat > bin/census <<'END'
#!/usr/bin/env bash
if [ "$1 $2" = 'survey part2.state' ] && [ ! -e killed ]; then
  touch killed
  real survey part2.state "$3" --codes codes --part 2/20 > some
  kill -KILL $PPID
  exit 1
fi
exec real "$@"
END
chmod +x bin/census
PATH=$room/bin:$PATH

by_loop() {
  local i all=0
  for i in {1..5}; do ./job codes 1024 "$i/5" || all=1; done
  return $all
}

by_xargs() {
  seq 5 | xargs -P 4 -I{} sh -c './job codes 1024 {}/5 || exit 1'
}

by_make() {
  make -k -j 4 N=5 COUNT=1024
}

by_parallel() {
  seq 5 | parallel --will-cite -j 4 ./job codes 1024 {}/5
}

# What the tasks of an array say is in files of their own.
by_slurm() {
  local all=0
  sbatch --wait --array=1-5 --output=%a.out --error=%a.out --wrap './job codes 1024 $SLURM_ARRAY_TASK_ID/5' || all=1
  cat ?.out
  return $all
}

engines=(loop xargs make)
if command -v parallel > found && parallel --version 2> faults | grep -q GNU; then engines+=(parallel); fi
if has_slurm; then
  engines+=(slurm)
  start_slurm
fi

# What one survey says, and what is left before.
census init one.state 1 > told
census survey one.state 1024 --codes codes > one.lines
census games one.state > one.games
census left 1024 --codes codes one.state | diff /dev/null -

for engine in "${engines[@]}"; do
  mkdir "$engine"
  cp job codes Makefile "$engine"
  cd "$engine"
  if "by_$engine" > told.1 2>&1; then exit 1; fi
  test -e killed -a -e part2.state -a ! -e part2.delta -a -s part5.delta
  census left 1024 --codes codes part2.state part{1,3,4,5}.delta > left
  test -s left

  # Part 3 is lost, but for a copy of its delta.
  cp part3.delta twice.delta
  rm part3.delta part3.state
  "by_$engine" > told.2 2>&1
  cmp part3.delta twice.delta
  census union --replace all.delta $(printf '%s\n' part*.delta twice.delta | shuf) > told.3
  census digest all.delta | cut -c 1-64 >> ../digests
  census left 1024 --codes codes all.delta | diff /dev/null -
  census init all.state 7 > told.3
  census merge all.state all.delta > told.3
  census games all.state | cmp - ../one.games
  cat some told.1 told.2 | grep ' period ' | sort -u | cmp - <(sort ../one.lines)
  cd ..
done
test "$(sort -u digests | wc -l)" = 1
test "$(wc -l < digests)" = "${#engines[@]}"

# The parts are given to a hub, all at once, and stay what they are, whatever the hub has.
census init hub.state 9 > told
census note hub.state about 'of the hub' > told
cp -r make before
start_hub hub.state --peers 6
gifts=()
for part in {1..5}; do
  census sync --give "make/part$part.state" "$address" > "given.$part" &
  gifts+=($!)
done
wait "${gifts[@]}"
for part in {1..5}; do
  test "$(cat "given.$part")" = 'done'
  cmp "make/part$part.state" "before/part$part.state"
done
census note make/part1.state about 'said later' > told
test "$(census sync --give --quiet make/part1.state "$address")" = ''
wait "$hub"
census left 1024 --codes codes hub.state | diff /dev/null -
census show hub.state > shown
grep -qx 'note about 9.1 of the hub' shown
grep -q '^note about .* said later$' shown
if census show make/part1.state | grep -q 'of the hub'; then exit 1; fi
refused 2 Words sync --give --all make/part1.state 127.0.0.1:1

# Parts of the table are its own parts again, and make all of it.
census init table.state 8 > told
census merge table.state make/all.delta > told
census note table.state about 'said of no game' > told
for part in 1 2 3; do
  census delta table.state "of$part.delta" --codes codes --part "$part/3" > told
done
census union again.delta of2.delta of3.delta of1.delta > told
cmp again.delta make/all.delta

# What is done costs a tenth at most.
spent() {
  local TIMEFORMAT='%U %S'
  { time census survey long.state 16384 --codes codes --skip-done > lines; } 2>&1 | awk '{ print int(1000 * ($1 + $2)) }'
}
census init long.state --for 'a long run' > told
first=$(spent)
test "$(head -n 1 lines)" = 'left out 0'
again=$(spent)
test "$(cat lines)" = 'left out 63'
if [ $((10 * again)) -gt "$first" ]; then
  echo "cluster: the first run took $first ms, and the same again $again" >&2
  exit 1
fi
echo "cluster: under ${engines[*]}, parts that are killed, lost and given twice are one table; what is done costs nothing again"
