#!/usr/bin/env bash
# Prints what instances cost, in instructions as callgrind counts them: a `new-device` with its instance, where so many
# nodes have one each, and a call of a method by `$call-method`, by `call-package` and by `$call-parent`, with the
# return of an empty method and the loop around it; and opening an instance with an empty `open`, and closing it.
# usage: bench/instances.sh
set -euo pipefail
source "$(dirname "${BASH_SOURCE[0]}")/images.sh"

image none ''
none=$(image_instructions none)
for count in 128 256 512 1021; do
    image "devices-$count" "$(printf '011f %.0s' $(seq "$count"))"
    echo "new-device, $count nodes: $((($(image_instructions "devices-$count") - none) / count)) instructions"
done

method='ca016d0800 b7 c2'
turn 'a colon definition' 'b50800 b7 c2' '0800' 0007 fffd
turn '$call-method' "$method" '12016d 0203 020e' 000c fff8
turn 'call-package' "$method" '11 0800 0203 0208' 000c fff8
turn '$call-parent' "$method 011f" '12016d 0209' 000a fffa
turn 'open-package and close-package' 'ca046f70656e0800 b7 a4 c2' '1200 0203 020b 0205 0206' 000f fff5
