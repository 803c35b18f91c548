# Sets `program`, the examples' folder and a folder that goes at the end, for a script that runs the program over the
# examples; to be sourced with the script's own arguments.
top=$(cd "$(dirname "$(readlink -f "${BASH_SOURCE[0]}")")/.." && pwd)
program=$(readlink -f "${1:-$top/crates/ofw/out/ofw}")
examples=$top/crates/of_examples/data
folder=$(mktemp -d)
trap 'rm -rf "$folder"' EXIT
