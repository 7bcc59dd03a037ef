#!/bin/sh
# Times the filling of made loops, benches/filling/shapes.py, by the program of benches/filling, which is proved and built in a
# copy of the repository as it is committed: its sources end with .txt, since no crate of the repository has them. That takes
# minutes the first time. Needs python3. Usage: benches/filling.sh
top=$(cd "$(dirname "$0")/.." && pwd) || exit 1
copy=$(mktemp -d) || exit 1
trap 'rm -rf "$copy"' EXIT
git clone -q "$top" "$copy/here" && cd "$copy/here" || exit 1
echo "filling_bench: mesh_terms mb_base face_loops face_plane ring_cutting hole_joining triangulate" >> crates.txt
mkdir -p crates/filling_bench/src
cp "$top/benches/filling/main.rt.txt" crates/filling_bench/src/main.rt
cp "$top/benches/filling/loops.rt.txt" crates/filling_bench/src/loops.rt
cp -r "$top/benches/filling/proofs" crates/filling_bench/proofs
find crates/filling_bench/proofs -name '*.txt' | while read -r file; do mv "$file" "${file%.txt}"; done
cd crates/filling_bench || exit 1
python3 "$top/benches/filling/shapes.py" > shapes.txt
rt run < /dev/null >&2 || exit 1
out/filling_bench < shapes.txt
