# What features.h switches on: held channels, the partner's reader, stitching.
. "$(dirname "$0")/common.sh"
on=
jpeg 48 24 1 a.jpg -quality 50 -sample 2x1
jpeg2sheet a.jpg -o a.tsv --iterations 4
sheet2png a.tsv a.png
if has HOLD; then
    on="$on hold"
    status 0 jpeg2sheet a.jpg -o h.tsv --iterations 4 --hold 4,1,0
    [ "$(sed -n 4p h.tsv)" = "$(printf 'H\t4\t1\t0')" ]
    status 0 sheet2png h.tsv h.png
    if cmp -s a.png h.png; then exit 1; fi
    status 0 jpeg2sheet a.jpg -o n.tsv --iterations 4 --hold 4
    status 0 sheet2png n.tsv n.png
    cmp a.png n.png
    status 2 jpeg2sheet a.jpg -o x.tsv --iterations 4 --hold 4,5,0
    says 'hold has a count above the iterations'
    sed '4s/1/5/' h.tsv >x.tsv
    status 1 sheet2png x.tsv x.png
    says '17 (hold), line 4: field 2 (held count) is .5., expected 0 to 4'
    test-words 20000 2 h.tsv
fi
if has PARTNER; then
    on="$on partner"
    awk '/^E/ { print "N\t0\t1\t2"; print "N\t2\t0\t0" } 1' a.tsv >m.tsv
    status 0 sheet2png m.tsv staff.png
    cmp a.png staff.png
    # blocks of channel 0 stand in lines 5 on, 6 in a row; of channel 2 first in the third channel
    awk -v FS='\t' -v OFS='\t' '/^C/ { c++; b = 0; print; next } /^B/ { b++; if ((c == 1 && b == 9) || (c == 3 && b == 1)) for (i = 3; i <= 65; i++) $i = 0 } 1' a.tsv >hidden.tsv
    sheet2png hidden.tsv hidden.png
    status 0 sheet2png m.tsv partner.png --partner
    cmp hidden.png partner.png
    if cmp -s a.png partner.png; then exit 1; fi
    mkdir in
    cp m.tsv in
    status 0 sheet batch in out --partner
    cmp hidden.png out/m.png
    status 0 sheet batch in out
    cmp a.png out/m.png
    awk '/^E/ { print "N\t0\t3\t0" } 1' a.tsv >x.tsv
    status 1 sheet2png x.tsv x.png
    says '18 (mark), line [0-9]*: field 2 (block row) is .3., expected 0 to 2'
    awk '/^E/ { print "N\t0\t1\t2"; print "N\t0\t1\t2" } 1' a.tsv >x.tsv
    status 1 sheet2png x.tsv x.png
    says '18 (mark), line [0-9]*: the block is marked by a line before'
    test-words 20000 3 m.tsv
fi
if has STITCH; then
    on="$on stitch"
    jpeg 16 24 2 b.jpg -quality 50 -sample 2x1
    jpeg2sheet b.jpg -o b.tsv --iterations 4
    status 0 sheet stitch a.tsv b.tsv c.tsv
    [ "$(head -n 1 c.tsv | cut -f 2-5)" = "$(printf '64\t24\t64\t24')" ]
    for side in a b; do # the blocks of one side, in order, are that sheet's
        awk -v FS='\t' -v side=$side '/^C/ { w = $2 / 8; a = $2 / 8 * 3 / 4; n = 0; next } /^B/ { x = n++ % w; if ((x < a) == (side == "a")) print }' c.tsv >blocks
        grep '^B' $side.tsv | cmp - blocks
    done
    status 0 sheet2png c.tsv c.png
    jpeg2sheet b.jpg -o d.tsv --iterations 5
    status 1 sheet stitch a.tsv d.tsv x.tsv
    says '16 (seam)'
    head -c 500 b.tsv >cut.tsv
    status 1 sheet stitch a.tsv cut.tsv x2.tsv
    says 'cut.tsv: refused, 7 (cut), line'
    absent x2.tsv
fi
echo "switched on:${on:- none yet}"
