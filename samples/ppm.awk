# Turns what `smooth` prints into a picture file that image viewers open (PPM):
#
#     ./smooth < samples/colour.tsv | awk -f samples/ppm.awk > colour.ppm
#
# With `-v zoom=8` each pixel becomes 8 by 8. A refusal (a line X) goes to standard error, with status 1.
BEGIN { FS = "\t"; zoom = zoom ? zoom : 1; digits = "0123456789abcdef" }
function byte(s) { return 16 * (index(digits, substr(s, 1, 1)) - 1) + index(digits, substr(s, 2, 1)) - 1 }
$1 == "I" { print "P3", $2 * zoom, $3 * zoom, 255 }
$1 == "R" {
    row = ""
    for (i = 2; i <= NF; i++)
        for (k = 0; k < zoom; k++)
            row = row byte(substr($i, 1, 2)) " " byte(substr($i, 3, 2)) " " byte(substr($i, 5, 2)) "\n"
    for (k = 0; k < zoom; k++) printf "%s", row
}
$1 == "X" { print > "/dev/stderr"; exit 1 }
