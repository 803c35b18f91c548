# Builds the program, and makes a folder for files that goes with the script; to be sourced. It sets `top`, the top of
# the repository, `program` and `folder`.
top=$(cd "$(dirname "${BASH_SOURCE[0]}")/.." && pwd)
program="$top/crates/ofw/out/ofw"
folder=$(mktemp -d)
trap 'rm -rf "$folder"' EXIT
"$top/ofw" tok "$top/examples/card.fs" >/dev/null
echo 'f10800000000000900' >"$folder/empty.hex"
