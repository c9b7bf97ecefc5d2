#!/bin/sh
# A map from a PNG picture, as a PNG picture.
#
#   examples/png.sh IN.png N WIDTH HEIGHT OUT.png [options of fill]
#
# It goes over PPM, by netpbm (pngtopnm, pnmtopng) or, where that isn't there, by ImageMagick. What is transparent in IN.png counts by its
# colour alone. SCALE=K makes each pixel of OUT.png K by K. WFC names the program, if it isn't ./wfc of this repository. Its status is that
# of the program, or 5 where a picture can't be read or written; then and at any status but 0 nothing is written.
set -u
if [ $# -lt 5 ]; then
    sed -n '4s/^# *//p' "$0" >&2
    exit 3
fi
in=$1 n=$2 width=$3 height=$4 out=$5
shift 5
wfc=${WFC:-$(dirname -- "$0")/../wfc}
scale=${SCALE:-1}
room=$(mktemp -d) || exit 5
trap 'rm -rf -- "$room"' EXIT
trap 'exit 5' HUP INT TERM

if command -v pngtopnm >/dev/null && command -v pnmtopng >/dev/null; then
    # (pngtopnm makes grey pictures PGM, and ppmtoppm PPM of all)
    pngtopnm "$in" >"$room/any" && ppmtoppm <"$room/any" >"$room/in.ppm" || exit 5
elif command -v magick >/dev/null; then
    magick "$in" -depth 8 "ppm:$room/in.ppm" || exit 5
elif command -v convert >/dev/null; then
    convert "$in" -depth 8 "ppm:$room/in.ppm" || exit 5
else
    echo "png.sh: neither netpbm nor ImageMagick is here" >&2
    exit 5
fi
"$wfc" fill "$room/in.ppm" "$n" "$width" "$height" "$@" >"$room/out.ppm" || exit
if command -v pnmtopng >/dev/null && command -v pamenlarge >/dev/null; then
    pamenlarge "$scale" <"$room/out.ppm" >"$room/large.ppm" && pnmtopng <"$room/large.ppm" >"$room/out.png" 2>/dev/null || exit 5
elif command -v magick >/dev/null; then
    magick "ppm:$room/out.ppm" -scale "$((scale * 100))%" "png:$room/out.png" || exit 5
else
    convert "ppm:$room/out.ppm" -scale "$((scale * 100))%" "png:$room/out.png" || exit 5
fi
cp -- "$room/out.png" "$out" || exit 5
