# Levels to a tape and back, tables to a segment and back, and what is refused.
. "$(dirname "$0")/common.sh"
for kind in '-grayscale' '-sample 1x1' '-sample 2x2'; do
    # shellcheck disable=SC2086
    jpeg 100 37 1 a.jpg -quality 60 $kind
    jpeg2sheet a.jpg -o a.tsv
    status 0 sheet archive a.tsv a.tape
    awk -v FS='\t' -v OFS='\t' '/^B/ { for (i = 2; i <= 65; i++) $i = 0 } 1' a.tsv >like.tsv
    status 0 sheet archive --restore a.tape like.tsv b.tsv
    cmp a.tsv b.tsv
    status 0 sheet archive --restore a.tape like.tsv - >c.tsv
    cmp a.tsv c.tsv
    status 0 sheet dqt --export a.tsv a.dqt
    [ "$(wc -c <a.dqt)" = 264 ]
    status 0 sheet dqt a.dqt >q
    [ "$(wc -l <q)" = 4 ]
    # the sheet's tables stand in the segment
    awk -v FS='\t' 'NR == FNR { sub(/^Q\t.\t/, ""); q[NR - 1] = $0; next } /^C/ { sub(/^C\t[0-9]*\t[0-9]*\t.\t.\t/, ""); if ($0 != q[n++]) bad = 1 } END { exit bad }' q a.tsv
done
# two blocks with first levels -2047 and 2047 are stored with -2047 and 4094
awk -v FS='\t' -v OFS='\t' 'NR == 1 { $2 = 16; $4 = 16 } /^C/ { $2 = 16 } /^B/ { $2 = -2047; print; $2 = 2047 } 1' "$repository/samples/whole.tsv" >two.tsv
status 0 sheet archive two.tsv two.tape
[ "$(od -An -td2 -w128 -v two.tape | awk '{ printf "%s ", $1 }')" = '-2047 4094 ' ]
head -c 200 a.tape >short.tape
status 1 sheet archive --restore short.tape a.tsv d.tsv
says 'refused, 8 (length): 200 bytes, expected'
{ printf '\000\010'; tail -c +3 a.tape; } >high.tape
status 1 sheet archive --restore high.tape a.tsv d.tsv
says 'refused, 5 (level): channel 0'
awk -v FS='\t' -v OFS='\t' '/^B/ { line = "G"; for (i = 2; i <= 65; i++) line = line OFS ($i) OFS ($i + 1); print line; next } 1' "$repository/samples/whole.tsv" >g.tsv
status 1 sheet archive g.tsv d.tape
says 'g.tsv: line 3: a range of levels'
jpeg 16 16 1 deep.jpg -quality 1
status 1 sheet dqt deep.jpg
says 'refused, 20 (precision)'
printf 'hello' >text
status 1 sheet dqt text
says 'refused, 19 (segment)'
absent d.tsv d.tape
# every JPEG file beside the oracle has its tables, or is refused for 16 bits
for file in "$repository"/oracle/jpeg/*.jpg; do
    sheet dqt "$file" >q 2>said || grep -q '20 (precision)' said
done
echo "tapes and segments there and back"
