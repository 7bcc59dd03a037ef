#!/bin/sh
# Times the tree over a million boxes and a million questions to it, by the program of benches/box_tree, which is proved and built
# in a copy of the repository as it is committed: its sources end with .txt, since no crate of the repository has them. That takes minutes the first time. Usage: benches/box_tree.sh
top=$(cd "$(dirname "$0")/.." && pwd) || exit 1
copy=$(mktemp -d) || exit 1
trap 'rm -rf "$copy"' EXIT
git clone -q "$top" "$copy/here" && cd "$copy/here" || exit 1
echo "box_tree_bench: mb_base box_tree" >> crates.txt
mkdir -p crates/box_tree_bench
cp -r "$top/benches/box_tree" crates/box_tree_bench/src
mv crates/box_tree_bench/src/proofs crates/box_tree_bench/proofs
find crates/box_tree_bench -name '*.txt' | while read -r file; do mv "$file" "${file%.txt}"; done
cd crates/box_tree_bench || exit 1
rt run
