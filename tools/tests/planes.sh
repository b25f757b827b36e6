# Planes, totals, clipped numbers and picture beside the published Rust: the sample always, sheets of cjpeg's files where cargo and the published Rust are there.
. "$(dirname "$0")/common.sh"
test-planes "$repository/samples/colour.tsv" | grep -v '^P' | cmp - "$repository/samples/colour.out"
whole=$repository/oracle/target/release/whole
if ! (cd "$repository/oracle" && cargo build --release --bin whole) >built 2>&1; then
    tail -n 3 built
    echo "the sample alone: no cargo, or no published Rust (ARTEFACT_SRC, oracle/README.md)"
    exit 0
fi
count=0
for sides in '8 8' '17 9' '33 31' '48 64' '70 20' '96 96'; do
    for kind in '-grayscale' '-sample 1x1' '-sample 2x1' '-sample 2x2'; do
        for settings in '--iterations 3 --mode j' '--iterations 2,4,1 --mode s --reorder m --rounding t' '--iterations 5 --smoothing 1,0.5,2 --data 0,1,0.25'; do
            # shellcheck disable=SC2086
            jpeg $sides $count a.jpg -quality $((10 + count % 85)) -baseline $kind
            # shellcheck disable=SC2086
            jpeg2sheet a.jpg -o a.tsv $settings
            test-planes a.tsv >ours
            "$whole" a.tsv >due
            cmp ours due || { echo "$sides $kind $settings"; exit 1; }
            count=$((count + 1))
        done
    done
done
echo "$count sheets of cjpeg's files: planes, totals, clipped numbers and pictures bit for bit"
