# What the tests share. Sourced by each, in its own empty folder.
repository=$(cd ../../../.. && pwd -P)

# has FEATURE: features.h switches it on.
has() { grep -q "^#define HAVE_$1 1" "$repository/tools/features.h"; }

# status N COMMAND ..: the command has to end with status N; what it says on standard error is in `said`.
status() {
    due=$1
    shift
    got=0
    "$@" 2>said || got=$?
    cat said >&2
    [ "$got" = "$due" ] || { echo "status $got, due $due: $*"; exit 1; }
}

# says WORDS: the last command under `status` said one line, with these words in it.
says() {
    grep -q -e "$1" said || { echo "not said: $1"; exit 1; }
    [ "$(wc -l <said)" = 1 ] || { echo "said more than one line"; exit 1; }
}

absent() {
    for file in "$@"; do
        [ ! -e "$file" ] || { echo "$file is there"; exit 1; }
    done
}

# jpeg WIDTH HEIGHT SEED FILE OPTIONS ..: a picture through cjpeg.
jpeg() {
    test-picture "$1" "$2" "$3" >"$4.ppm"
    file=$4
    shift 4
    cjpeg "$@" -outfile "$file" "$file.ppm"
    rm "$file.ppm"
}
