#!/bin/sh
# Times inspecting by the program as it was last built by bin/manifold_tool, in a folder of its own, and prints a table; benches/inspecting.py says what the rows are.
# Needs python3. Usage: benches/inspect.sh
top=$(cd "$(dirname "$0")/.." && pwd) || exit 1
program=$top/crates/manifold_tool/out/manifold_tool
if [ ! -x "$program" ]; then
    echo "inspect.sh: bin/manifold_tool builds the program: run it once first" >&2
    exit 1
fi
folder=$(mktemp -d) || exit 1
trap 'rm -rf "$folder"' EXIT
cd "$folder" && python3 "$top/benches/inspecting.py" "$program"
