#!/bin/sh
# Two misuses that the types rule out: a sheet on a draft, and an edge on a sealed model. Each edit here is applied to
# a copy of the program `cases`, which must then not compile. Run from the repository's root; it prints a line for each.
set -u
failed=0
for edit in misuse/*.edit; do
    copy=$(mktemp -d)
    tar -c --exclude=out crates.txt crates | tar -x -C "$copy"
    file=crates/cases/$(sed -n 's/^file: //p' "$edit")
    old=$(sed -n 's/^old: //p' "$edit")
    new=$(sed -n 's/^new: //p' "$edit")
    awk -v old="$old" -v new="$new" '
        { at = index($0, old) }
        at { print substr($0, 1, at - 1) new substr($0, at + length(old)); found++; next }
        { print }
        END { exit found != 1 }' "$file" > "$copy/$file" || { echo "$edit: does not fit"; failed=1; }
    if said=$(cd "$copy/crates/cases" && rt try 2>&1); then
        echo "$edit: NOT refused"
        failed=1
    else
        echo "$edit: refused: $(printf '%s\n' "$said" | head -n 1)"
    fi
    rm -rf "$copy"
done
exit $failed
