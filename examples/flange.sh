# A flange with a hub, a bore and six holes for bolts: writes four meshes and flange.txt, the script that makes it of them.
shapes="python3 examples/shapes.py"
$shapes disc.obj cylinder 40 6 48
$shapes hub.obj cone 22 22 16 36 shift 0 0 5    # as a cylinder, but with a point in the middle of each end
$shapes bore.obj cylinder 14 30 40 shift 0 0 -1
$shapes hole.obj cylinder 3.3 10 16 shift 0 0 -1
{
    printf 'load disc disc.obj\nload hub hub.obj\nload tools bore.obj\nload hole hole.obj\n'
    for at in '31 0' '15.5 26.847' '-15.5 26.847' '-31 0' '-15.5 -26.847' '15.5 -26.847'; do
        printf 'shift bolt hole %s 0\nunion tools tools bolt\n' "$at"
    done
    printf 'union flange disc hub\nsubtract flange flange tools\nremesh flange flange\nmeasure flange\nsave tools tools.obj\nsave flange flange.obj\n'
} > flange.txt
