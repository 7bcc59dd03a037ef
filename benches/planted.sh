#!/bin/sh
# Tries the wrong bodies of crates that the gate does not try, benches/planted/NAME/*.edit, in a copy of the repository as it is committed:
# the proofs must refuse each. Those that the gate tries stand in crates/NAME/must-fail. Run it for a crate when its contracts change.
# Usage: benches/planted.sh NAME..
top=$(cd "$(dirname "$0")/.." && pwd) || exit 1
copy=$(mktemp -d) || exit 1
trap 'rm -rf "$copy"' EXIT
git clone -q "$top" "$copy/here" && cd "$copy/here" || exit 1
for name in "$@"; do
    rm -f "crates/$name"/must-fail/*.edit
    mkdir -p "crates/$name/must-fail"
    mv "benches/planted/$name"/*.edit "crates/$name/must-fail/" || exit 1
done
rt must-fail "$@"
