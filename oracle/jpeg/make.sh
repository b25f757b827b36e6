#!/bin/sh
# Makes the JPEG files of this folder with cjpeg of libjpeg-turbo 2.1.5 (Debian package libjpeg-turbo-progs, 1:2.1.5-2) from the picture samples/colour.out.
set -eu
cd "$(dirname "$0")"
picture=$(mktemp)
awk -f ../../samples/ppm.awk ../../samples/colour.out > "$picture"
for q in 1 10 25 50 75 95 100; do
    cjpeg -quality $q "$picture" > quality$q.jpg            # 1 and 10 have tables of 16 bits
done
for q in 1 10; do
    cjpeg -quality $q -baseline "$picture" > baseline$q.jpg # quantisers at most 255
done
cjpeg -quality 50 -grayscale "$picture" > grey50.jpg
cjpeg -quality 75 -progressive -optimize "$picture" > progressive75.jpg
cjpeg -quality 90,60 "$picture" > channels.jpg
# three tables of our own, for destinations 0, 1 and 2
tables=$(mktemp)
awk 'BEGIN { for (t = 0; t < 3; t++) for (k = 0; k < 64; k++) print t * 64 + k + 1 }' > "$tables"
cjpeg -quality 50 -qtables "$tables" -qslots 0,1,2 "$picture" > slots.jpg
rm "$picture" "$tables"
