# What a partner gets: batches of sheets that differ in hidden levels alone fill the folder that is sent with the same files, byte for byte.
. "$(dirname "$0")/common.sh"
has PARTNER || { echo "the library has no partner's reader yet"; exit 0; }
# same_folders ONE TWO: the same names, hidden ones too, of the same kinds, and the same bytes
same_folders() {
    (cd "$1" && find . -printf '%P\t%y\n' | LC_ALL=C sort) >one.list
    (cd "$2" && find . -printf '%P\t%y\n' | LC_ALL=C sort) >two.list
    cmp one.list two.list && diff -r "$1" "$2"
}
# Marked are blocks 1 and 2 of channel 0 and all of channel 2. One folder has zeros there, short ones; the other has levels of four digits, in lines G where a sheet has an odd number.
mkdir one two
for n in 1 2 3 4 5 6; do
    jpeg $((40 + 8 * n)) 40 "$n" a.jpg -quality 60
    jpeg2sheet a.jpg -o a.tsv --iterations 60 --smoothing 1
    for folder in one two; do
        awk -v FS='\t' -v OFS='\t' -v folder=$folder -v ranges=$((n % 2)) '
            function mark(c, at) { marks = marks "N" OFS c - 1 OFS int(at / across) OFS at % across "\n" }
            /^C/ { c++; b = 0; across = $2 / 8 }
            /^E/ { printf "%s", marks }
            /^B/ && (c == 3 || (c == 1 && (b == 1 || b == 2))) {
                mark(c, b++)
                line = folder == "two" && ranges ? "G" OFS $2 OFS $2 : "B" OFS $2
                for (i = 3; i <= 65; i++)
                    line = line OFS (folder == "one" ? 0 : ranges ? -1234 OFS 2047 : (i % 2 ? -2047 : 1999))
                print line
                next
            }
            /^B/ { b++ }
            1' a.tsv >"$folder/s $n.tsv"
    done
done
head -n 4 a.tsv | tee "one/z cut.tsv" >"two/z cut.tsv"
[ "$(wc -c <'two/s 1.tsv')" -gt $(($(wc -c <'one/s 1.tsv') + 1000)) ]
status 1 sheet batch one one.sent --partner -j 3
# the other batch takes another time: it is stopped and started again
sheet batch two two.sent --partner -j 1 2>/dev/null &
process=$!
while kill -0 $process && [ "$(find two.sent.rows -name '*.row' 2>/dev/null | wc -l)" -lt 2 ]; do sleep 0.01; done
kill -TERM $process
wait $process || true
done=$(find two.sent.rows -name '*.row' | wc -l)
[ "$done" -lt 7 ]
status 1 sheet batch two two.sent --partner -j 1
grep -q "$done of them done before" said
same_folders one.sent two.sent
[ "$(find one.sent -type f -name '*.png' | wc -l)" = 6 ]
[ "$(find one.sent -mindepth 1 | wc -l)" = 6 ]
# staff see another picture, and the rows, which stay at home, tell the texts apart
status 1 sheet batch two staff
for n in 1 2 3 4 5 6; do
    if cmp -s "staff/s $n.png" "two.sent/s $n.png"; then exit 1; fi
    if cmp -s "one.sent.rows/s $n.row" "two.sent.rows/s $n.row"; then exit 1; fi
    sheet2png --partner "two/s $n.tsv" a.png
    cmp a.png "two.sent/s $n.png"
done
# planted: a row, the summary, a file with a dot, an empty folder, one byte of a picture: the comparison reports each
planted() {
    if same_folders planted.one planted.two >/dev/null 2>&1; then echo "not reported: $1"; exit 1; fi
    rm -r planted.one planted.two
}
both() { cp -r one.sent planted.one; cp -r two.sent planted.two; }
both; same_folders planted.one planted.two
for n in one two; do cp "$n.sent.rows/s 3.row" planted.$n; done; planted 'a row'
both; for n in one two; do cp $n.sent.rows/summary.tsv planted.$n; done; planted 'the summary'
both; : >planted.two/.hidden; planted 'a file with a dot'
both; mkdir planted.one/folder; planted 'a folder'
both; printf x >>"planted.two/s 6.png"; planted 'a byte more'
# the batch itself names what else stands in the folder: rows of an earlier version, a picture of a sheet that is gone
for name in 's 3.row' summary.tsv gone.png .hidden 'folder/s 3.row'; do
    mkdir -p "$(dirname "two.sent/$name")"
    : >"two.sent/$name"
    status 2 sheet batch two two.sent --partner
    says "two.sent/${name%%/*}: is no picture of these sheets"
    rm -r "two.sent/${name%%/*}"
done
ln -sf "$PWD/staff/s 1.png" 'two.sent/s 1.png'
status 2 sheet batch two two.sent --partner
says 'two.sent/s 1.png: is no picture of these sheets'
rm 'two.sent/s 1.png'
# rows never stand in the folder that is sent
for rows in two.sent two.sent/rows two.sent/../two.sent/./rows; do
    status 2 sheet batch two two.sent --partner --rows $rows
    says 'rows can.t stand in the folder that a partner gets'
    absent two.sent/rows
done
status 2 sheet one 'two/s 1.tsv' two.sent --partner --rows two.sent
says 'rows can.t stand in the folder that a partner gets'
# a folder that had pictures for staff: none of them is left, whatever the rows of before say
cp -r two.sent.rows kept.rows
cp -r two.sent mixed
status 1 sheet batch two mixed --partner --rows kept.rows
same_folders mixed one.sent
status 1 sheet batch two mixed --rows staff.rows
if same_folders mixed one.sent >/dev/null; then exit 1; fi
status 1 sheet batch two mixed --partner --rows kept.rows
grep -q ' 1 of them done before' said
same_folders mixed one.sent
cp 'staff/s 2.png' 'mixed/.s 2.png.part' # of a batch for staff that was killed
status 1 sheet batch two mixed --partner --rows kept.rows
same_folders mixed one.sent
mkdir two/z.tsv # can't be read
cp 'staff/s 1.png' mixed/z.png
cp 'staff/s 1.png' 'mixed/z cut.png'
cp staff/*.png mixed
status 2 sheet batch two mixed --partner --rows kept.rows
grep -q 'two/z.tsv: not done' said
absent mixed/z.png
same_folders mixed one.sent
rmdir two/z.tsv
# sheets one by one, into a folder with pictures for staff
cp -r staff single
for n in 1 2 3 4 5 6; do
    status 0 sheet one "two/s $n.tsv" single --partner
done
status 1 sheet batch two single --partner
grep -q ' 6 of them done before' said
same_folders single one.sent
echo "sheets with other hidden levels: the folder that is sent is the same, also stopped, mixed and one by one"
