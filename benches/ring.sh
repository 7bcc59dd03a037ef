#!/bin/sh
# Times a ring of a million places, made, spliced, read once round and freed, by the program of benches/ring, which is proved and
# built in a copy of the repository as it is committed: its source ends with .txt, since no crate of the repository has it. That
# takes minutes the first time. Usage: benches/ring.sh
top=$(cd "$(dirname "$0")/.." && pwd) || exit 1
copy=$(mktemp -d) || exit 1
trap 'rm -rf "$copy"' EXIT
git clone -q "$top" "$copy/here" && cd "$copy/here" || exit 1
echo "ring_bench: mesh_terms mb_base loop_ring" >> crates.txt
mkdir -p crates/ring_bench/src
cp "$top/benches/ring/main.rt.txt" crates/ring_bench/src/main.rt
cd crates/ring_bench || exit 1
rt run
