#!/usr/bin/env bash
# Shows that a slip can neither be let go nor handed in twice: applies each misuse to a copy of code that pulls a row, and
# expects the compiler's error by name. A must-fail edit cannot show it, since such code never reaches the prover.
set -eu
cd "$(dirname "$0")/.."
work=$(mktemp -d)
trap 'rm -rf "$work"' EXIT
cp -r crates "$work/crates"
cat crates.txt > "$work/crates.txt"
echo 'misuse: goals sheets' >> "$work/crates.txt"
mkdir -p "$work/crates/misuse/src"
try() {
    cat > "$work/crates/misuse/src/lib.rt" <<RT
#![tactic(auto)]

use goals::goal::Goal;
use sheets::sheet::Sheet;

pub fn look<G: Goal>(sheet: &mut Sheet<G>, serial: u16) -> bool {
    match sheet.pull(serial) {
        Ok(slip) => $1,
        Err(_) => false,
    }
}
RT
    (cd "$work/crates/misuse" && rt check 2>&1) || true
}
expect() {
    if try "$2" | grep -q "$3"; then echo "ok: $1"; else echo "NOT REFUSED: $1"; exit 1; fi
}
expect 'a slip that is put back is fine' '{ sheet.put_back(slip).is_ok() }' 'logic=proved'
expect 'a slip that is let go does not compile' '{ true }' 'linear-value-let-go'
expect 'a slip that is handed in twice does not compile' '{ let _ = sheet.put_back(slip); sheet.put_back(slip).is_ok() }' 'borrow-e0382'
