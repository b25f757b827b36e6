# A processor that is set to round otherwise than to the nearest, or to drop subnormals: nothing is computed, before main and in mid-work, and all is right when it is set back.
. "$(dirname "$0")/common.sh"
jpeg 40 24 1 a.jpg -quality 50 -sample 2x1
jpeg2sheet a.jpg -o a.tsv --iterations 2
jpeg2sheet a.jpg -o s.tsv --iterations 1,2,0 --mode s
mkdir in
cp a.tsv in
test-modes a.tsv
test-modes s.tsv
preload=$repository/tools/bin/test-mode.so
for mode in 0x2000 0x4000 0x6000 0x8000 0x0040 0x10000; do
    for command in 'sheet2png a.tsv a.png' 'sheet2png --start a.tsv a.png' 'sheet2png --partner a.tsv a.png' 'jpeg2sheet a.jpg -o b.tsv --smoothing 0.3' 'sheet batch in out' \
        'sheet one a.tsv out'; do
        # shellcheck disable=SC2086
        status 2 env LD_PRELOAD="$preload" MODE=$mode $command
        says 'the processor is set to round otherwise than to the nearest, or to drop subnormals .MXCSR 0x[0-9a-f]*, x87 rounding 0'
        absent a.png b.tsv out
    done
    status 2 env LD_PRELOAD="$preload" MODE=$mode LATE=1 sheet2png a.tsv a.png
    says 'the processor is set to round otherwise'
    absent a.png
done
# set late, a child of the batch says it, and its sheet is not done
status 2 env LD_PRELOAD="$preload" MODE=0x8000 LATE=1 sheet batch in late
grep -q 'the processor is set to round otherwise' said
grep -q 'in/a.tsv: not done' said
absent late/a.png late.rows/a.row
# as it is usually set, with flags of what happened or without, it draws
status 0 sheet2png a.tsv a.png
status 0 env LD_PRELOAD="$preload" MODE=0x3f sheet2png a.tsv b.png
cmp a.png b.png
status 0 sheet batch in late
cmp a.png late/a.png
grep '^[0-9]* calls' log | tail -n 1
