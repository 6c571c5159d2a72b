#!/usr/bin/env bash
# Plants each bug of planted/ alone in a copy of its crate, and shows what the check says of it. Each must be refused.
# planted/try.sh [CRATE..]; without a name all crates.
set -euo pipefail
cd "$(dirname "$0")/.."
crates=("$@")
[ ${#crates[@]} -gt 0 ] || crates=(items stores blocks arrangements queue runs)
copy=$(mktemp -d)
trap 'rm -rf "$copy"' EXIT
cp -r crates crates.txt "$copy"/
cd "$copy"
rm -rf crates/*/out
planted=0
for crate in "${crates[@]}"; do
    rm -f crates/"$crate"/must-fail/*.edit
    cp "$OLDPWD"/planted/"$crate"/*.edit crates/"$crate"/must-fail/
    edits=(crates/"$crate"/must-fail/*.edit)
    planted=$((planted + ${#edits[@]}))
done
said=$copy/said
rt must-fail "${crates[@]}" >"$said" 2>&1 || true
grep -a "^rt: must-fail" "$said" | sed 's/^rt: must-fail //' | cut -c1-200
refused=$(grep -ac 'refused, as it must be' "$said" || true)
echo "$refused of $planted refused"
[ "$refused" = "$planted" ]
