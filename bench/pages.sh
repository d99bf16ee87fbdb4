#!/bin/bash
# The pages of all examples by `show`: each by every policy, with 4 and 16 registers, and beside another policy. They are read as XML,
# and page_faults.py says what is wrong with them. With a browser's name, pictures of two of them in light and dark are left in the
# folder `pictures`.
#
#     bench/pages.sh [PROGRAM [BROWSER]]
#
# PROGRAM is the built program of crates/trc (`rt run` leaves it in that crate's out/). BROWSER is one that takes Chromium's words, as
# `chromium`; bench/README.md says how a page is looked at without a screen.
set -eu
. "$(dirname "$0")/measure.sh"
program=${1:-$(built trc)}
browser=${2:-}
needs "$program"

# modules NAME: the files of the example, in their order
modules() {
    case $1 in
        UseStack) echo "$top/examples/Stack.Mod $top/examples/UseStack.Mod" ;;
        *) echo "$top/examples/$1.Mod" ;;
    esac
}

# page NAME WORD..: writes the example's page into the work folder
page() {
    local name=$1 file
    shift
    file="$work/$name$(printf '%s' "$*" | tr -d ' ').html"
    # shellcheck disable=SC2046
    "$program" show "$file" $(modules "$name") "$@"
}

# picture FILE NAME SCHEME: a picture of a page; the scheme is 0 for dark and 1 for light
picture() {
    "$browser" --headless --no-sandbox --disable-gpu --hide-scrollbars --window-size=1500,2400 \
        --blink-settings=preferredColorScheme="$3" --screenshot="pictures/$2.png" "file://$1" >/dev/null 2>&1
}

for file in "$top"/examples/*.Mod; do
    name=$(basename "$file" .Mod)
    [ "$name" = Stack ] && continue
    for policy in plain linear bottomup mixed; do
        page "$name" --policy "$policy" --regs 4
        page "$name" --policy "$policy" --traces uni
    done
    page "$name" --policy linear --against bottomup --regs 6
done
"$top/bench/page_faults.py" "$work"/*.html
if [ -n "$browser" ]; then
    mkdir -p pictures
    for name in Gcd Matrices; do
        page "$name" --policy bottomup --regs 4
        picture "$work/$name--policybottomup--regs4.html" "$name-light" 1
        picture "$work/$name--policybottomup--regs4.html" "$name-dark" 0
    done
fi
