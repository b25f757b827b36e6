# A batch of 500 sheets, damaged ones among them: whole, stopped and started again, killed and started again.
. "$(dirname "$0")/common.sh"
mkdir in
for k in $(seq 0 9); do
    jpeg $((9 + 5 * k)) $((33 - 2 * k)) "$k" a.jpg -quality $((20 + 7 * k)) -baseline -sample "$((1 + k % 2))x1"
    jpeg2sheet a.jpg -o "base$k.tsv" --iterations 4 --mode "$([ $((k % 3)) = 0 ] && echo s || echo j)"
done
for n in $(seq 1 500); do
    base=base$((n % 10)).tsv
    file=in/$(printf 'sheet %03d.tsv' "$n")
    case $((n % 50)) in
    7) head -c $((n * 3)) $base >"$file" ;;
    19) sed "2s/./X/" $base >"$file" ;;
    23) awk -v FS='\t' -v OFS='\t' '/^C/ && !k++ { $9 = 256 } 1' $base >"$file" ;;
    31) awk -v FS='\t' -v OFS='\t' 'NR == 1 { $14 = "h7f000000" } 1' $base >"$file" ;;
    43) test-picture 20 20 "$n" >"$file" ;;
    *) awk -v FS='\t' -v OFS='\t' -v n="$n" 'NR == 1 { $11 = "w" n % 7 } 1' $base >"$file" ;;
    esac
done
: >'in/empty "quoted".tsv'
same() { # FOLDER: its pictures and its summary, seconds aside, are those of the whole run
    cut -f 1-14 "$1.rows/summary.tsv" >summary
    cut -f 1-14 whole.rows/summary.tsv | cmp - summary
    for picture in whole/*.png; do
        cmp "$picture" "$1/${picture#whole/}"
    done
    [ "$(find "$1" -name '*.png' | wc -l)" = "$(find whole -name '*.png' | wc -l)" ]
    [ -z "$(find "$1" -name '.*.part')" ]
}
rows() { find "$1.rows" -name '*.row' 2>/dev/null | wc -l; }
got=0
sheet batch in whole -j 2 2>whole.said || got=$?
[ $got = 1 ]
tail -n 1 whole.said
[ "$(wc -l <whole.rows/summary.tsv)" = 502 ]
[ "$(awk -F '\t' 'NF != 15' whole.rows/summary.tsv | wc -l)" = 0 ]
awk -F '\t' 'NR > 1 { n[$2]++ } END { for (k in n) print "refusal " k ": " n[k] " sheets" }' whole.rows/summary.tsv
awk -F '\t' 'NR > 1 && $2 == 0 { good++ } END { exit good != 450 }' whole.rows/summary.tsv
grep -q '^empty ?quoted?.tsv	7	1	the text ends here' whole.rows/summary.tsv
# rows and summary stand beside the pictures' folder, which has pictures alone
[ "$(find whole -mindepth 1 ! -name '*.png' | wc -l)" = 0 ]
[ "$(rows whole)" = 501 ]
# each sheet's picture is sheet2png's
sheet2png 'in/sheet 001.tsv' one.png
cmp one.png 'whole/sheet 001.png'
# started again: nothing is done twice
touch mark
got=0
sheet batch in whole -j 2 2>said || got=$?
[ $got = 1 ]
grep -q '501 of them done before' said
[ -z "$(find whole -name '*.png' -newer mark)" ]
# stopped in the middle by a signal that can be caught, and by one that can't
for signal in TERM KILL; do
    sheet batch in $signal -j 2 2>$signal.said &
    process=$!
    while [ "$(rows $signal)" -lt 120 ]; do sleep 0.02; done
    kill -$signal $process
    got=0
    wait $process || got=$?
    sleep 0.3
    done=$(rows $signal)
    echo "stopped by $signal with $done of 501 done"
    [ "$done" -lt 501 ]
    [ $signal = KILL ] || { [ $got = 2 ]; grep -q 'stopped with' TERM.said; }
    absent $signal.rows/summary.tsv
    got=0
    sheet batch in $signal -j 2 2>again || got=$?
    [ $got = 1 ]
    grep -q "$done of them done before" again
    same $signal
done
# a sheet that has changed, and other settings, are done anew
echo >>'in/sheet 001.tsv'
sheet batch in whole 2>said || true
grep -q '500 of them done before' said
absent 'whole/sheet 001.png'
mkdir few
cp 'in/sheet 002.tsv' 'in/sheet 003.tsv' few
sheet batch few end 2>said
sheet batch few end --start 2>said
grep -q ' 0 of them done before' said
# sheets one by one, as under GNU parallel, and then the summary
for file in few/*.tsv; do sheet one "$file" single; done
sheet batch few single 2>said
grep -q ' 2 of them done before' said
# rows in a folder of one's own choice, under it too; a picture that is gone or another is drawn again
status 0 sheet batch few chosen --rows chosen
[ "$(find chosen -name '*.row' | wc -l)" = 2 ]
status 0 sheet batch few chosen/ --rows chosen
says ' 2 of them done before; chosen/summary.tsv'
rm 'chosen/sheet 002.png'
cp 'whole/sheet 004.png' 'chosen/sheet 003.png'
status 0 sheet batch few chosen --rows ./chosen/
says ' 0 of them done before'
cmp 'whole/sheet 002.png' 'chosen/sheet 002.png'
cmp 'whole/sheet 003.png' 'chosen/sheet 003.png'
(cd chosen && status 0 sheet batch ../few .)
[ "$(find chosen.rows -name '*.row' | wc -l)" = 2 ]
status 2 sheet batch few chosen --rows
status 2 sheet batch few chosen --rows no/rows
says 'no/rows: is no folder and can.t be made one'
# a file that can't be read stops nothing
mkdir few/folder.tsv
status 2 sheet batch few single
grep -q 'folder.tsv: not done' said
[ "$(wc -l <single.rows/summary.tsv)" = 4 ]
status 2 sheet batch few few
status 2 sheet batch no out
# a table reader that knows quotes, as read.delim does, sees the same cells
if command -v python3 >/dev/null; then
    python3 -c 'import csv, sys
rows = list(csv.reader(open("KILL.rows/summary.tsv"), delimiter="\t", quotechar="\""))
sys.exit(not (len(rows) == 502 and {len(r) for r in rows} == {15}))'
fi
if command -v Rscript >/dev/null; then
    Rscript -e 'd <- read.delim("KILL.rows/summary.tsv"); stopifnot(nrow(d) == 501, ncol(d) == 15, is.numeric(d$refusal), is.numeric(d$tv_0), is.numeric(d$seconds))'
fi
echo "501 sheets, 51 of them refused: the same summary and pictures whole, stopped and killed"
