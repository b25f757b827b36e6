# No program and no command writes over what it reads, under whatever name; and names are shown as they can be shown.
. "$(dirname "$0")/common.sh"
jpeg 32 16 1 a.jpg -quality 50
jpeg2sheet a.jpg -o a.tsv --iterations 2
sheet archive a.tsv a.tape
mkdir away
ln -s ../a.tsv away/link.tsv
ln a.tsv away/hard.tsv
ln -s away folder
for file in a.jpg a.tsv a.tape; do cp $file due.$file; done
kept() { # all inputs are as they were, links are links, and nothing is left beside
    for file in a.jpg a.tsv a.tape; do cmp $file due.$file; done
    [ -L away/link.tsv ]
    [ "$(stat -c %h a.tsv)" = 2 ]
    [ -z "$(find . -name '.*.part')" ]
}
no() { # COMMAND ..: is refused, in words
    status 2 "$@"
    says "can.t be written: it is the input"
    kept
}
for name in a.tsv ./a.tsv "$PWD/a.tsv" away/../a.tsv away/link.tsv away/hard.tsv folder/hard.tsv; do
    no sheet2png a.tsv "$name"
    no sheet2png "$name" a.tsv
    no sheet2png a.tsv out.png --totals "$name"
    no sheet stitch a.tsv a.tsv "$name"
    no sheet archive "$name" a.tsv
    no sheet archive --restore a.tape "$name" a.tsv
    no sheet archive --restore a.tape a.tsv "$name"
    no sheet dqt --export a.tsv "$name"
    absent out.png
done
no sheet archive --restore a.tape a.tsv ./a.tape
no jpeg2sheet a.jpg -o ./a.jpg
# redirected streams have no name, and are the same files all the same
no sheet2png - a.tsv <away/hard.tsv
no sheet2png a.tsv - >>a.tsv
no sheet2png - - <a.tsv >>away/link.tsv
no jpeg2sheet - -o a.jpg <a.jpg
no jpeg2sheet a.jpg >>a.jpg
no sheet dqt a.jpg >>a.jpg
no sheet2png /dev/stdin a.tsv <a.tsv
# the name that is written beside an output may be the input too
cp a.tsv .out.png.part
status 2 sheet2png .out.png.part out.png
says 'can.t be written: it is the input'
cmp .out.png.part due.a.tsv
rm .out.png.part
ln -s a.tsv .out.png.part
status 2 sheet2png a.tsv out.png
says 'out.png: can.t be written: Too many levels of symbolic links'
rm .out.png.part
kept
# two outputs are two files
for name in out.png ./out.png away/../out.png; do
    status 2 sheet2png a.tsv out.png --totals "$name"
    says 'out.png: can.t be written: --totals names it too'
    absent out.png
done
status 0 sheet2png a.tsv /dev/null --totals /dev/null
# the batch: pictures and rows that are another name of a sheet, its own or another's
mkdir in out rows
cp a.tsv in/a.tsv
cp a.tsv in/b.tsv
ln in/b.tsv out/a.png
ln -s ../in/a.tsv rows/b.row
for options in '' --partner; do
    # shellcheck disable=SC2086
    status 2 sheet batch in out --rows rows $options
    grep -q 'out/a.png: can.t be written: it is the input in/b.tsv' said
    grep -q 'rows/b.row: can.t be written: it is the input in/a.tsv' said
    cmp in/a.tsv due.a.tsv
    cmp in/b.tsv due.a.tsv
    rm -f out/b.png rows/summary.tsv
done
ln -sf ../in/a.tsv out/a.png
status 2 sheet one in/a.tsv out --rows other --partner
grep -q 'out/a.png: can.t be written: it is the input in/a.tsv' said
[ -L out/a.png ]
cmp in/a.tsv due.a.tsv
rm out/a.png rows/b.row
head -n 2 a.tsv >in/cut.tsv
mv in/b.tsv out/cut.png
ln -s ../out/cut.png in/b.tsv
status 2 sheet batch in out --rows rows # a picture that a refused sheet may not have
grep -q 'out/cut.png: can.t be written: it is the input in/b.tsv' said
cmp out/cut.png due.a.tsv
rm in/cut.tsv
mv out/cut.png in/b.tsv
ln -sf ../in/a.tsv rows/summary.tsv
status 2 sheet batch in out --rows rows
says 'rows/summary.tsv: can.t be written: it is the input in/a.tsv'
cmp in/a.tsv due.a.tsv
status 2 sheet batch in out --rows in
says 'in: rows need another folder than the sheets'
# a link stays a link, also one that leads to no file yet
ln -s away/new.png one.png
ln -s one.png two.png
status 0 sheet2png a.tsv two.png
[ -L one.png ]
[ -L two.png ]
[ -f away/new.png ]
test-same away/new.png
ln -s "$PWD/away/other.png" full.png
status 0 sheet2png a.tsv full.png
[ -L full.png ]
cmp away/new.png away/other.png
ln -s no/folder.png lost.png
status 2 sheet2png a.tsv lost.png
says 'lost.png: can.t be written: No such file or directory'
ln -s round.png round.png
status 2 sheet2png a.tsv round.png
says 'round.png: can.t be written: Too many levels of symbolic links'
[ -L lost.png ]
[ -L round.png ]
status 2 sheet2png a.tsv two.png --totals away/new.png
says 'two.png: can.t be written: --totals names it too'
kept
# names: what a terminal would obey is shown by its number
odd=$(printf 'red\033[31m\nline\233\\')
shown='red\\033\[31m\\012line\\233\\\\'
for command in 'sheet2png NAME out.png' 'sheet2png a.tsv NAME/x' 'jpeg2sheet NAME' 'sheet dqt NAME' 'sheet one NAME out' 'sheet NAME' 'sheet2png a.tsv b.png --NAME'; do
    set --
    for word in $command; do
        case $word in
        NAME*) set -- "$@" "$odd${word#NAME}" ;;
        --NAME) set -- "$@" "--$odd" ;;
        *) set -- "$@" "$word" ;;
        esac
    done
    got=0
    "$@" 2>said || got=$?
    [ $got = 2 ]
    says "$shown"
    if LC_ALL=C grep -q '[^ -~]' said; then exit 1; fi
done
mkdir names
head -n 3 a.tsv >"names/$odd.tsv"
status 1 sheet batch names pictures
grep -q "names/$shown.tsv: refused, 7 (cut)" said
if LC_ALL=C grep -q '[^ -~]' said; then exit 1; fi
status 2 sheet2png 'Wal–März €.tsv' out.png
says 'Wal–März €.tsv: can.t be read'
status 2 sheet2png "$(printf 'gpj.\342\200\256txet\302\205\300\257\355\240\200\364\220\200\200\342\202')" out.png
says 'gpj\.\\342\\200\\256txet\\302\\205\\300\\257\\355\\240\\200\\364\\220\\200\\200\\342\\202: can.t be read'
echo "no input is written over, links stay links, and names are shown by what they are"
