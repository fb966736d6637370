#!/usr/bin/env bash
# The places of each point of docs/DESIGN-PASS.md in src/ at a commit (by default the tree as committed): tools/places.sh [-l] [COMMIT]. With -l it lists them.
set -euo pipefail
cd "$(dirname "$0")/.."
list=0
if [ "${1:-}" = -l ]; then list=1; shift; fi
commit=${1:-HEAD}
say() {
    local what=$1; shift
    local found
    found=$(git grep -nP "$@" "$commit" -- 'crates/*/src/*.rt' | sed "s/^[^:]*://" | grep -vP '^[^:]*:[0-9]+:\s*//' || true)
    printf '%-62s %s\n' "$what" "$(printf '%s' "$found" | grep -c . || true)"
    if [ "$list" = 1 ] && [ -n "$found" ]; then printf '%s\n' "$found" | sed 's/^/    /' | cut -c1-180; fi
}
echo "places at $(git rev-parse --short "$commit")"
say '1 own enums' -e '^\s*(pub(\(crate\))? )?enum '
say '1 a flag or an own enum beside its value, in a struct' -e '^\s*pub (whole|found|line): '
say '1 numbers that stand for none, for a kind or for an answer' -e '\b(ABSENT|STOPPED|SPOILT)\b' -e '(FLOWS <= k|k < FLOWS|\bFLOWS\n)' -e '(unknown|timing|overlap|past): (usize|0)' -e '(cell|stamp|place|counts|interval|x) [!=]= 0' -e '(op|kind) == [0-9]' -e 'x != 0'
say '3 loops by while or loop' -e '^\s*(while|loop|.*: loop) ?' 
say '3 loops over the indices of a slice' -e 'for \w+ in [\w]+\.\.[\w.]*len\(\)'
say '4 the larger, the smaller or the difference by an if' -e 'if \w+( as \w+)? <=? \w+( as \w+)? \{ .* \} else \{ .* \}' -e 'if \w+ < \w+( as \w+)? \{ \w+'
say '4 casts by as' -e '\bas (u8|u16|u32|u64|usize)\b'
say '4 characters and bounds as numbers' -e '\b(48|58)\b'
say '7 a switch on which step to run' -e '(match pair|match question|kind == |op == |up: bool)'
echo "2 function names that stand in more than one file"
git grep -hoP '^\s*(pub(\(crate\))? )?fn \K\w+' "$commit" -- 'crates/*/src/*.rt' | sort | uniq -c | awk '$1 > 1 {printf "    %s %s\n", $1, $2}'
echo "8 proof files of functions: $(git ls-tree -r --name-only "$commit" -- crates | grep -cP 'proofs/.+/(Answers|Invariants)\.antt$' || true), lines: $(git ls-tree -r --name-only "$commit" -- crates | grep -P 'proofs/.+/(Answers|Invariants)\.antt$' | while read -r f; do git show "$commit:$f"; done | wc -l)"
