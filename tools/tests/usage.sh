# Words of the command lines, status, and features that the library has not.
. "$(dirname "$0")/common.sh"
for program in jpeg2sheet sheet2png sheet; do
    status 0 $program --help >help
    grep -q '^usage: ' help
    status 2 $program
    status 2 $program --nonsense
done
jpeg 20 12 1 a.jpg -quality 50
status 0 jpeg2sheet a.jpg -o a.tsv
status 0 jpeg2sheet a.jpg >b.tsv
status 0 jpeg2sheet - -o c.tsv <a.jpg
cmp a.tsv b.tsv
cmp a.tsv c.tsv
status 0 jpeg2sheet a.jpg -o d.tsv --mode s --iterations 1,2,3 --smoothing 0.3,2,h00000000 --data 0.001 --rounding t --reorder m
printf 'S\t32\t16\t20\t12\t3\ts\t1\t2\t3\th3e99999a\tw2\th00000000\th3a83126f\th3a83126f\th3a83126f\nF\tt\nA\tm\n' >due
head -n 3 d.tsv | cmp - due
for words in '--mode x' '--iterations 1001' '--iterations 1,2' '--iterations -1' '--smoothing -1' '--smoothing w256' '--smoothing 1e39' '--smoothing nan' '--data 1,2,3,4' \
    '--data h7f800000' '--rounding j' '--reorder' '--hold 1,2' 'b.jpg'; do
    # shellcheck disable=SC2086
    status 2 jpeg2sheet a.jpg -o e.tsv $words
    absent e.tsv
done
status 2 jpeg2sheet no.jpg
says 'no.jpg: can.t be read: No such file'
status 2 sheet2png a.tsv no/a.png
says 'no/a.png: can.t be written: No such file'
status 0 sheet2png a.tsv a.png --totals a.svg
test-same a.png
grep -q '^<svg' a.svg
[ "$(grep -c polyline a.svg)" = 2 ]
status 0 sheet2png a.tsv - >b.png
cmp a.png b.png
status 0 sheet2png - c.png <a.tsv
cmp a.png c.png
status 0 sheet2png a.tsv d.png --start
if cmp -s a.png d.png; then exit 1; fi
status 1 sheet2png a.tsv e.png --page 49
says 'refused, 15 (page), line 1: field 7 (iterations) is .50., expected 0 to 49'
absent e.png
status 0 sheet2png a.tsv e.png --page 50
cmp a.png e.png
status 2 sheet2png a.tsv f.png --page 1001
has PARTNER || { status 2 sheet2png a.tsv f.png --partner; says 'no such call yet'; }
has STITCH || { status 2 sheet stitch a.tsv a.tsv f.tsv; says 'no such call yet'; }
has HOLD || { status 2 jpeg2sheet a.jpg --hold 1,1,1; says 'no such call yet'; }
absent f.png f.tsv
echo "command lines, status and settings as the usage says"
