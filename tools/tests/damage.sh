# 10,000 damaged JPEG files under AddressSanitizer.
. "$(dirname "$0")/common.sh"
n=0
for kind in '-grayscale' '-sample 1x1' '-sample 2x1' '-sample 2x2' '-sample 4x1,2x1,1x1'; do
    for coding in '-baseline' '-progressive' '-arithmetic' '-restart 1B -optimize'; do
        n=$((n + 1))
        # shellcheck disable=SC2086
        jpeg $((9 + 3 * n)) $((60 - 2 * n)) $n $n.jpg -quality $((95 - 3 * n)) $kind $coding
    done
done
test-damage 10000 1 ./*.jpg 2>said || { tail -n 40 said; exit 1; }
