#!/usr/bin/env bash
# Sheets held to the definition `sheet` of the crate rules: NAME.in is what the program reads, NAME.out what it writes.
#   prove_sheets.sh emit FILE.in ...   print a module with one check by computation for each
#   prove_sheets.sh run DIR            prove them for every sheet of a folder, in a scratch copy of the crates
set -euo pipefail
root=$(cd "$(dirname "$0")/.." && pwd)

bytes() { # FILE: its bytes as a list
    od -An -v -tu1 "$1" | tr -s ' \n' '\n' | awk 'NF { printf "%s ∷ ", $1 } END { printf "[]" }'
}

emit() {
    cat <<'TOP'
-- Sheets computed by the definition: what each reads, and what it writes.
use Rattle.std.specs.Prelude.{◌≡◌, refl, [], ◌∷◌}
use Rattle.rules.specs.Sheet.{sheet}
TOP
    for file; do
        name=$(basename "$file" .in)
        printf '\n%s : sheet (%s) ≡ %s\nunfolding sheet\n%s = refl\n' "$name" "$(bytes "$file")" "$(bytes "${file%.in}.out")" "$name"
    done
}

run() {
    scratch=$(mktemp -d)
    trap 'rm -rf "$scratch"' EXIT
    cp -R "$root/crates" "$scratch/crates"
    rm -rf "$scratch"/crates/*/must-fail
    cp "$root/crates.txt" "$scratch/crates.txt"
    echo 'every_sheet: rules' >>"$scratch/crates.txt"
    mkdir -p "$scratch/crates/every_sheet/src" "$scratch/crates/every_sheet/specs"
    echo '// Sheets only.' >"$scratch/crates/every_sheet/src/lib.rt"
    count=0
    for file in "$1"/*.in; do
        emit "$file" >"$scratch/crates/every_sheet/specs/S$count.antt"
        echo "pub mod S$count" >>"$scratch/crates/every_sheet/specs/Lib.antt"
        count=$((count + 1))
    done
    (cd "$scratch/crates/every_sheet" && rt check)
    echo "$count sheets agree with the definition"
}

case ${1:-} in
emit) shift; emit "$@" ;;
run) run "$2" ;;
*) echo "usage: prove_sheets.sh emit FILE.in ... | run DIR" >&2; exit 2 ;;
esac
