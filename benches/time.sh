#!/bin/sh
# Times the program as it was last built by bin/manifold_tool, on a made mesh, `in.obj`, of 4 * SIDE * SIDE triangles, in a folder of its own. Lists the mesh,
# prints the program's line, the seconds and the peak memory, and, where the command wrote `out.obj`, whether it equals `in.obj`. Ends with the program's status, or 1
# where they differ. Needs python3. Usage: benches/time.sh SIDE WORD..; SIDE 500 gives 1,000,000 triangles:
#   benches/time.sh 500 copy in.obj out.obj
#   benches/time.sh 500 inside in.obj 1 1 0
side=$1
if [ $# -lt 2 ]; then
    echo "usage: benches/time.sh SIDE WORD.." >&2
    exit 1
fi
shift
top=$(cd "$(dirname "$0")/.." && pwd) || exit 1
program=$top/crates/manifold_tool/out/manifold_tool
if [ ! -x "$program" ]; then
    echo "time.sh: bin/manifold_tool builds the program: run it once first" >&2
    exit 1
fi
folder=$(mktemp -d) || exit 1
trap 'rm -rf "$folder"' EXIT
python3 "$top/benches/grid_mesh.py" "$side" > "$folder/in.obj" || exit 1
cd "$folder" || exit 1
ls -l in.obj
python3 - "$program" "$@" <<'P'
import resource, subprocess, sys, time
began = time.time()
status = subprocess.call(sys.argv[1:])
print("seconds %.2f" % (time.time() - began))
print("peak memory %d MB" % (resource.getrusage(resource.RUSAGE_CHILDREN).ru_maxrss // 1024))
sys.exit(status)
P
status=$?
if [ $status = 0 ] && [ -f out.obj ]; then
    cmp in.obj out.obj && echo "out.obj equals in.obj"
    status=$?
fi
exit $status
