# The words for a refused line beside the library's number, on damaged texts.
. "$(dirname "$0")/common.sh"
jpeg 17 9 1 a.jpg -quality 50
jpeg 16 8 2 b.jpg -quality 50 -grayscale
jpeg2sheet a.jpg -o a.tsv
jpeg2sheet b.jpg -o b.tsv --iterations 1000
awk -v FS='\t' -v OFS='\t' '/^B/ && n++ % 2 { line = "G"; for (i = 2; i <= 65; i++) line = line OFS ($i - 1) OFS $i; print line; next } 1' b.tsv >g.tsv
status 0 sheet2png --start g.tsv g.png
test-words 30000 1 a.tsv b.tsv g.tsv "$repository/samples/whole.tsv" "$repository/samples/colour.tsv"
