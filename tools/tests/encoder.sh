# Real encoder output: sizes, samplings, qualities, kinds of coding. The start of each sheet beside what djpeg makes of the file; the same sheet from the file coded otherwise; the
# tables beside those that the proved import finds.
. "$(dirname "$0")/common.sh"
count=0
next() { # next N LIST ..: the list's entry number N, counted round
    n=$1
    shift
    shift $((n % $#))
    echo "$1"
}
check() { # WIDTH HEIGHT SAMPLING
    quality=$(next $count 75 10 95 50 30 100 5)
    coding=$(next $count -baseline '-progressive -baseline' '-restart 2B -baseline' '-arithmetic -baseline' '-optimize -baseline')
    other=$(next $count -progressive '-optimize -restart 1' -arithmetic -optimize '-progressive -arithmetic')
    colour="-sample $3,1x1,1x1"
    [ "$3" != grey ] || colour=-grayscale
    # shellcheck disable=SC2086
    jpeg "$1" "$2" $count a.jpg -quality $quality $coding $colour
    # shellcheck disable=SC2086
    jpegtran $other -outfile b.jpg a.jpg
    jpeg2sheet a.jpg -o a.tsv
    jpeg2sheet b.jpg -o b.tsv
    cmp a.tsv b.tsv
    sheet2png --start a.tsv a.png
    djpeg -dct float -nosmooth -pnm -outfile a.pnm a.jpg
    most=4 mean=1
    # with coarse tables values leave 0 to 255; djpeg clamps them before the colours are converted, a sheet's picture afterwards
    [ "$quality" -ge 50 ] || { most=255 mean=4; }
    test-same a.png a.pnm $most $mean >difference || { echo "$1 x $2, $3, quality $quality$coding: differs by $(cat difference)"; exit 1; }
    sheet dqt a.jpg >tables
    awk -v FS='\t' 'NR == FNR { q[$2] = $0; sub(/^Q\t.\t/, "", q[$2]); next } /^C/ { c = n++; line = $0; sub(/^C\t[0-9]*\t[0-9]*\t.\t.\t/, "", line); if (line != q[c ? 1 : 0]) bad = 1 }
        END { exit bad || !n }' tables a.tsv || { echo "$1 x $2, $3: other tables"; exit 1; }
    count=$((count + 1))
}
for sides in '1 1' '7 9' '8 8' '16 8' '17 33' '31 31' '64 48' '100 37' '129 63' '255 256' '511 5' '3 505' '512 512'; do
    for sampling in grey 1x1 2x1 2x2 1x2 4x1 2x4; do
        # shellcheck disable=SC2086
        check $sides $sampling
    done
done
echo "$count files of cjpeg, each coded in two ways"
