#!/bin/sh
# Times the audit of the union of two spheres of so many triangles, a million where none are named, beside the union itself, by
# the program of benches/audit, which is proved and built in a copy of the repository as it is committed: its sources end with
# .txt, since no crate of the repository has them. That takes minutes the first time. Needs python3. Usage: benches/audit.sh [TRIANGLES]
top=$(cd "$(dirname "$0")/.." && pwd) || exit 1
copy=$(mktemp -d) || exit 1
trap 'rm -rf "$copy"' EXIT
git clone -q "$top" "$copy/here" && cd "$copy/here" || exit 1
echo "audit_bench: mb_base mb_outside rounding shadow_kernels mesh_check mesh_files retained_verts mesh_boolean" >> crates.txt
mkdir -p crates/audit_bench/src
cp "$top/benches/audit/main.rt.txt" crates/audit_bench/src/main.rt
mkdir -p crates/audit_bench/proofs/union_of
cp "$top/benches/audit/proofs/union_of/Invariants.antt.txt" crates/audit_bench/proofs/union_of/Invariants.antt
cd crates/audit_bench || exit 1
PYTHONPATH="$top/benches" python3 -c "import operations; operations.spheres(${1:-1000000})" || exit 1
rt run < /dev/null
