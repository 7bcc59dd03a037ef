# The five files of the bracket, each in a group of its own name, and groups.txt, the script that makes the bracket of
# them.
for part in plate boss bore left_hole right_hole; do
    { grep '^v' examples/$part.obj; echo "g $part"; grep '^f' examples/$part.obj; } > $part.obj
done
sed 's|examples/||' examples/bracket.txt > groups.txt
