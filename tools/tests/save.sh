# Files are saved whole or not at all: killed in mid-write, a full disk, a closed pipe.
. "$(dirname "$0")/common.sh"
test-save . 60 1
jpeg 256 256 1 a.jpg -quality 60
jpeg2sheet a.jpg -o a.tsv --iterations 0
jpeg2sheet a.jpg -o b.tsv --iterations 0 --rounding t
sheet2png a.tsv due_a.png
sheet2png b.tsv due_b.png
# the program itself, killed after any time
for i in $(seq 1 40); do
    if [ $((i % 2)) = 0 ]; then from=a.tsv; else from=b.tsv; fi
    sheet2png $from out.png &
    process=$!
    sleep "0.$(printf '%03d' $((i * 7 % 160)))"
    kill -9 $process 2>/dev/null || true
    wait $process 2>/dev/null || true
    [ ! -e out.png ] || cmp -s out.png due_a.png || cmp -s out.png due_b.png || { echo "out.png is broken in round $i"; exit 1; }
done
status 0 sheet2png a.tsv out.png
cmp out.png due_a.png
absent .out.png.part
# a full disk
status 2 sheet2png a.tsv - >/dev/full
says 'standard output: can.t be written: No space left'
status 2 jpeg2sheet a.jpg >/dev/full
says 'standard output: can.t be written: No space left'
(
    ulimit -f 8
    status 2 sheet2png b.tsv out.png
    says 'out.png: can.t be written: File too large'
)
cmp out.png due_a.png
absent .out.png.part
mkdir small
if unshare -m sh -c 'mount -t tmpfs -o size=32k none small' 2>/dev/null; then
    unshare -m sh -c 'mount -t tmpfs -o size=32k none small; echo old >small/out.png; sheet2png a.tsv small/out.png 2>said; [ $? = 2 ] && [ "$(cat small/out.png)" = old ] && [ "$(ls -A small)" = out.png ]'
    says 'small/out.png: can.t be written: No space left'
else
    echo "no small disk can be mounted here"
fi
# a closed pipe
{ sleep 0.3; got=0; sheet2png a.tsv - 2>said || got=$?; echo $got >got; } | true
while ! [ -s got ]; do sleep 0.1; done
[ "$(cat got)" = 2 ]
says 'standard output: can.t be written: Broken pipe'
# a link stays a link, and the file's rights stay
ln -s out.png link.png
chmod 640 out.png
status 0 sheet2png b.tsv link.png
[ -L link.png ]
cmp out.png due_b.png
[ "$(stat -c %a out.png)" = 640 ]
# one writer at a time
flock .out.png.part sh -c 'sheet2png a.tsv out.png 2>said; [ $? = 2 ]'
says 'another process is writing it'
echo "never a broken file; a full disk and a closed pipe are said; $(grep 'killed' log | head -n 1)"
