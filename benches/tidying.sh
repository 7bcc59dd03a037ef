#!/bin/sh
# Times tidying of a mesh with many edges of length zero, and of one with none, by the program as it was last built by bin/manifold_tool, in a folder of its own, and prints
# a table; benches/tidying.py says what the rows are. Needs python3. Usage: benches/tidying.sh [TRIANGLES]
top=$(cd "$(dirname "$0")/.." && pwd) || exit 1
program=$top/crates/manifold_tool/out/manifold_tool
if [ ! -x "$program" ]; then
    echo "tidying.sh: bin/manifold_tool builds the program: run it once first" >&2
    exit 1
fi
folder=$(mktemp -d) || exit 1
trap 'rm -rf "$folder"' EXIT
cd "$folder" && python3 "$top/benches/tidying.py" "$program" "$@"
