# What can't be a sheet gets one clear line and no output.
. "$(dirname "$0")/common.sh"
no() {
    status 1 jpeg2sheet "$1" -o out.tsv
    says "$1: no sheet: $2"
    absent out.tsv .out.tsv.part
}
for kind in cmyk rgb two level thirds; do
    test-odd $kind >$kind.jpg
done
no cmyk.jpg 'colours are CMYK'
no rgb.jpg 'colours are RGB'
no two.jpg '2 channels of unknown colours'
no level.jpg 'level 4000 in channel 0, a sheet has -2047 to 2047'
jpeg 513 8 1 wide.jpg -quality 50
no wide.jpg '513 x 8 pixels are 528 x 16 in whole blocks, a sheet has at most 512 x 512'
jpeg 8 520 1 high.jpg -quality 50 -grayscale
no high.jpg '8 x 520 pixels'
jpeg 16 16 1 coarse.jpg -quality 1
no coarse.jpg 'quantiser [0-9]* in the table of channel 0, a sheet has 1 to 255'
no thirds.jpg 'sampling factors 2 x 1 of channel 1 beside 3 x 1'
# 12 bits: the precision in the frame header, FF C0, length, precision
jpeg 16 16 1 plain.jpg -quality 50 -grayscale
at=$(LC_ALL=C grep -obUaP '\xff\xc0' plain.jpg | head -n 1 | cut -d: -f1)
{ head -c $((at + 4)) plain.jpg; printf '\014'; tail -c +$((at + 6)) plain.jpg; } >deep.jpg
no deep.jpg 'samples of 12 bits, a sheet has samples of 8'
head -c 300 plain.jpg >cut.jpg
status 1 jpeg2sheet cut.jpg -o out.tsv
absent out.tsv
size=$(wc -c <plain.jpg)
head -c $((size - 20)) plain.jpg >end.jpg
no end.jpg 'damaged: Premature end'
status 0 jpeg2sheet end.jpg -o end.tsv --damaged
printf 'hello\n' >text.jpg
no text.jpg 'can.t be decoded: Not a JPEG file'
: >empty.jpg
no empty.jpg 'the file is empty'
status 2 jpeg2sheet . -o out.tsv
says 'can.t be read: Is a directory'
# what is kept where the output can't be made: the old file
echo old >out.tsv
status 1 jpeg2sheet cmyk.jpg -o out.tsv
[ "$(cat out.tsv)" = old ]
rm out.tsv
# sheets: line, field, what was expected
sheet() { awk -v FS='\t' -v OFS='\t' "$1" "$repository/samples/colour.tsv" >bad.tsv; status 1 sheet2png bad.tsv out.png; says "bad.tsv: refused, $2"; absent out.png; }
sheet 'NR == 1 { $2 = 33 } 1' '2 (size), line 1: field 1 (full width) is .33., expected a multiple of 8, 8 to 512'
sheet 'NR == 1 { $7 = "x" } 1' '1 (form), line 1: field 6 (mode) is .x., expected j or s'
sheet 'NR == 1 { $11 = "w256" } 1' '6 (weight), line 1: field 10 (smoothing weight) is .w256., expected w with 0 to 255'
sheet '/^C/ && !n++ { $7 = 0 } 1' '4 (table), line 2: field 6 (quantiser 2 of 64) is .0., expected 1 to 255'
sheet '/^C/ && !n++ { $4 = 5 } 1' '3 (factor), line 2: field 3 (across factor) is .5., expected 1 to 4'
sheet '/^C/ && !n++ { $2 = 40 } 1' '2 (size), line 2: fields 1 and 3 (own width times across factor) make 40, expected at most 32, the full width'
sheet '/^B/ && !n++ { $65 = -2048 } 1' '5 (level), line 3: field 64 (level 64 of 64) is .-2048., expected -2047 to 2047'
sheet '/^B/ && !n++ { NF = 64 } 1' '1 (form), line 3: 63 fields after B, expected 64'
sheet '/^B/ && !n++ { $1 = "D" } 1' '1 (form), line 3: the tag is .D., expected B or G'
has PARTNER && or_mark='N or ' || or_mark=
sheet '/^E/ { next } 1' "7 (cut), line [0-9]*: the text ends here, expected a line ${or_mark}E"
sheet '1; END { print "" }' '7 (cut), line [0-9]*: something follows the line E'
sheet 'NR == 1 { $14 = "h7f000000" } 1' '10 (blown): the values of channel 0 overflowed in step 1'
echo "each has one clear line and no output"
