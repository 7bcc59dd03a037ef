# A flange with a bore and six holes for bolts, drawn flat: writes flat_flange.txt, the script that makes it.
ring() {
    awk -v name="$1" -v n="$2" -v r="$3" -v x="$4" -v y="$5" 'BEGIN {
        printf "polygon %s", name
        for (i = 0; i < n; i++) {
            turn = 6.2831853072 * i / n
            printf " %.3f %.3f", x + r * cos(turn), y + r * sin(turn)
        }
        print ""
    }'
}
{
    ring disc 64 40 0 0
    ring tools 48 14 0 0
    for at in '31 0' '15.5 26.847' '-15.5 26.847' '-31 0' '-15.5 -26.847' '15.5 -26.847'; do
        ring bolt 16 3.3 $at
        echo 'union2 tools tools bolt'
    done
    printf 'subtract2 flat disc tools\nextrude flange flat 0 6\nremesh flange flange\nmeasure flange\nsave flange flat_flange.obj\n'
} > flat_flange.txt
