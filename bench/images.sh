# Makes and counts runs of images written as tokens; to be sourced. Builds the program, and sets `program`.
top=$(cd "$(dirname "${BASH_SOURCE[0]}")/.." && pwd)
source "$top/bench/callgrind.sh"
folder=$(mktemp -d)
trap 'rm -rf "$folder"' EXIT
"$top/ofw" run "$top/examples/empty-program.hex"
program=$top/crates/ofw/out/ofw

# NAME TOKENS: an image of these tokens
image() { printf 'f108000000000000\n%s 00\n' "$2" >"$folder/$1"; }

# NAME: the instructions of a run of the image
image_instructions() { instructions run "$folder/$1"; }

# NAME LIMIT: the instructions of a run of the image, which its limit ends
limited() { instructions run "$folder/$1" --limit "$2"; }

# NAME DEFINITIONS CALL FORWARD BACK: the instructions of one turn of : loops  0 do CALL loop ;
turn() {
    for turns in 00000400 00000800; do
        image "$1-$turns" "$2 b50801 b7 a5 17 $4 $3 15 $5 c2 10 $turns 0801"
    done
    echo "$1: $((($(image_instructions "$1-00000800") - $(image_instructions "$1-00000400")) / 1024)) instructions"
}
