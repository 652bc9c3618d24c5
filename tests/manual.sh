#!/usr/bin/env bash
# The page of the manual in docs is the one that the program prints, the version that the program names is the newest of CHANGELOG,
# and the completions for a shell name each command of the help.
. "$(dirname "${BASH_SOURCE[0]}")/lib.sh"
census manual | cmp - "$top/docs/census.1"
version=$(sed -n 's:^## \([0-9][0-9.]*\)$:\1:p' "$top/CHANGELOG.md" | head -n 1)
[ "$(census --version)" = "census $version" ]
commands=$(census --help | sed -n 's/^  \([a-z]*\) .*/\1/p' | grep -vx census)
for shell in bash zsh fish; do
  census completion "$shell" >/dev/null
  for command in $commands; do
    census completion "$shell" | grep -qw -- "$command"
  done
done
bash -n <(census completion bash)

# What bash completes the last of these words by.
census completion bash >completions.bash
completed() {
  bash -c 'source ./completions.bash; COMP_WORDS=("$@"); COMP_CWORD=$(($# - 1)); _census; echo "${COMPREPLY[@]}"' bash "$@"
}
[ "$(completed census explain Lo)" = Load ]
[ "$(completed census completion z)" = zsh ]
[ "$(completed census surv)" = survey ]
[ "$(completed census claim a.state L)" = "" ]

# Where there is a zsh, it takes them with nothing set up before.
if command -v zsh >/dev/null; then
  census completion zsh >completions.zsh
  HOME=$PWD ZDOTDIR=$PWD zsh -fc 'source <(cat completions.zsh) && [[ $_comps[census] = _census ]]'
fi

# No line of the page is a request that roff does not know, or loses words: those who show it find nothing to warn of.
if command -v groff >/dev/null; then
  groff -man -Tutf8 -ww "$top/docs/census.1" 2>said >/dev/null
  [ ! -s said ]
fi
echo "manual: docs/census.1 is the page that the program prints, which is version $version, and shells complete its commands"
