#!/bin/sh
# Counts the blocks that tests of rings and of fillings take and free, since no clause says that a node's block is freed: the tests of the calls of `Ring`, and
# those of `fill`, which makes rings, joins and cuts them. It proves and builds face_tests, runs each of these under valgrind, writes its counts, and fails
# where a block is left, where a test took none, or where there is none of either kind. Needs valgrind. Usage: benches/ring_blocks.sh
top=$(cd "$(dirname "$0")/.." && pwd) || exit 1
cd "$top/crates/face_tests" || exit 1
rt test > /dev/null || exit 1
for kind in rings:: filling::; do
    names=$(out/face_tests_tests --list | sed -n "s/^\($kind.*\): test\$/\1/p")
    if [ -z "$names" ]; then
        echo "ring_blocks.sh: face_tests has no test $kind" >&2
        exit 1
    fi
    for name in $names; do
        report=$(valgrind --leak-check=full --show-leak-kinds=all --errors-for-leak-kinds=all --error-exitcode=1 out/face_tests_tests "$name" 2>&1)
        status=$?
        usage=$(echo "$report" | sed -n 's/.*total heap usage: //p')
        echo "$name: $usage"
        case $usage in
        "" | "0 allocs"*) exit 1 ;;
        esac
        [ $status -eq 0 ] || exit 1
    done
done
