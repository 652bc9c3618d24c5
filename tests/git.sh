#!/usr/bin/env bash
# Two people keep one table in a git repository, as docs/GROUP.md says: each has a clone, a state of their own, and the file census.delta
# under git, whose versions `census union` merges. Both issue at once and commit; the merge has no conflict, and both catalogues are
# the same bytes.
. "$(dirname "${BASH_SOURCE[0]}")/lib.sh"
mkdir bin home
make_command bin
export PATH=$room/bin:$PATH HOME=$room/home GIT_CONFIG_NOSYSTEM=1
export GIT_AUTHOR_NAME=test GIT_AUTHOR_EMAIL=test@example.org GIT_COMMITTER_NAME=test GIT_COMMITTER_EMAIL=test@example.org

# What each member does once in a clone: a number of their own, and the merge driver.
join_table() {
  git config merge.census.driver 'census union %A %A %B'
  git config diff.census.textconv 'census log'
  census init "$1.state" "$2" >/dev/null
}

# What each member does to share: take what came, give what is new.
give() {
  census merge "$1.state" census.delta >/dev/null
  census delta "$1.state" census.delta >/dev/null
  git commit -qam "$2"
}

git init -q --bare table.git
git -C table.git symbolic-ref HEAD refs/heads/main

# Anna begins the table.
git clone -q table.git anna 2>/dev/null
cd anna
git checkout -qb main
join_table anna 1
printf 'census.delta merge=census diff=census\n' >.gitattributes
printf '*.state\n' >.gitignore
census compute anna.state 0.77 168 >/dev/null
census delta anna.state census.delta >/dev/null
git add .gitattributes .gitignore census.delta
git commit -qm 'Kayles to heap 168'
git push -q origin main

# Ben joins, and both issue at once.
cd "$room"
git clone -q table.git ben
cd ben
join_table ben 2
echo '{"code":"0.77","start":68,"values":[1,8,2,7]}' >claim.json
census import ben.state claim.json >/dev/null
census note ben.state kayles 'period 12 from heap 70?' >/dev/null
give ben 'Four values, and a question'
cd "$room/anna"
census period anna.state 0.77 71 12 >/dev/null
give anna 'The period of Kayles'
git push -q origin main

# Ben's pull merges both versions of the file, without a conflict, and Anna takes the result.
cd "$room/ben"
git pull -q --no-rebase --no-edit origin main
test -z "$(git status --porcelain --untracked-files=no)"
git push -q origin main
census merge ben.state census.delta >/dev/null
cd "$room/anna"
git pull -q --no-rebase --no-edit origin main
census merge anna.state census.delta >/dev/null

cd "$room"
census show anna/anna.state >one
census show ben/ben.state >other
cmp one other
grep -qx 'block 2.1 at 68 count 4 refuted at 70 claimed 2 true 6' one
grep -qx 'period 1.2 from 71 by 12 proved' one
grep -qx 'note kayles 2.2 period 12 from heap 70?' one

# Cleo's clone has no driver yet: git says that there is a conflict. With the driver the same pull is merged, and nothing is lost.
(cd anna && census note anna.state kayles 'proved' >/dev/null && give anna 'A note' && git push -q origin main)
git clone -q table.git cleo
cd cleo
git reset -q --hard HEAD~1
census init cleo.state 3 >/dev/null
census note cleo.state kayles 'found by Guy and Smith' >/dev/null
give cleo 'Who found it'
if git pull -q --no-rebase --no-edit origin main >said 2>&1; then false; fi
grep -q 'CONFLICT.*census.delta' said
git merge --abort
git config merge.census.driver 'census union %A %A %B'
git pull -q --no-rebase --no-edit origin main
[ "$(census read census.delta | grep -c '^note kayles')" = 3 ]

# git shows who said what a version adds.
git config diff.census.textconv 'census log'
git diff HEAD^1 -- census.delta | grep -qx '+1.3 note kayles proved'
cd "$room"

# A file that is no delta is named by its place, and nothing is written.
cp anna/census.delta before
echo damaged >damaged
if census union anna/census.delta ben/census.delta damaged 2>said; then false; fi
grep -qx 'census: Union 2 Version' said
cmp before anna/census.delta
echo "the merge had no conflict, and both catalogues are the same"
