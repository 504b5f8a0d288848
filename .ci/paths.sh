#!/usr/bin/env bash
# Fails where README.md, docs/*.md or bench/NOTES.md name a path or a heading that is not there, and where
# docs/MAP.md does not list just the crates of crates.txt, each behind those that it stands on.
set -euo pipefail
cd "$(dirname "$0")/.."
failed=0

# The paths in backticks, and the targets of links without their anchors.
for page in README.md docs/*.md bench/NOTES.md; do
    folder=$(dirname "$page")
    while read -r path; do
        case $path in
            */out/*|out/*|*..*|*'*'*|*NAME*) continue ;;
        esac
        first=${path%%/*}
        if [ -d "crates/$first" ]; then path=crates/$path
        elif [ "$folder" = bench ] && [ -e "bench/$first" ]; then path=bench/$path
        elif [ ! -e "$first" ]; then continue
        fi
        [ -e "$path" ] || { echo "$page: $path is not there"; failed=1; }
    done < <(grep -oE '`[A-Za-z_.][A-Za-z0-9_.-]*(/[A-Za-z0-9_.*-]+)+/?`' "$page" | tr -d '`')
    while read -r path; do
        [ -e "$folder/$path" ] || { echo "$page: $path is not there"; failed=1; }
    done < <(grep -oE '\]\([^)#:]+' "$page" | sed 's/^](//')
    # (grep reads to the end: one that stops early would now and then end those before it with an error)
    while IFS='#' read -r path anchor; do
        sed -n 's/^#* //p' "$folder/$path" | tr 'A-Z ' 'a-z-' | tr -cd 'a-z0-9_\n-' | grep -xF -- "$anchor" > /dev/null ||
            { echo "$page: $path has no heading $anchor"; failed=1; }
    done < <(grep -oE '\]\([^):]+#[^)]+' "$page" | sed 's/^](//')
done

# A definition without a folder is in delivery_machine.
while read -r name; do
    [ -e "crates/delivery_machine/specs/$name" ] || { echo "docs/MAP.md: delivery_machine has no $name"; failed=1; }
done < <(grep -E '^\|' docs/MAP.md | grep -oE '`[A-Za-z]+\.antt`' | tr -d '`')

# A function that docs/MAP.md names behind a file is in that file.
while IFS='|' read -r file names; do
    [ -f "crates/$file" ] || continue
    for name in $(echo "$names" | tr -d '`,'); do
        grep -qE "(fn|const) $name\b" "crates/$file" || { echo "docs/MAP.md: $file has no $name"; failed=1; }
    done
done < <(grep -E '^\|' docs/MAP.md | grep -oE '`[a-z_]+/src/[a-z_]+\.rt`(, `[A-Za-z_]+`)+' |
    sed -E 's/^`([^`]*)`, /\1|/')

# The list of crates.
listed=$(sed -n 's/^- `\([a-z_]*\)`: .*(\(product\|witness\|test\))$/\1/p' docs/MAP.md | sort)
have=$(sed -n 's/^\([a-z_]*\)[^:#]*:.*/\1/p' crates.txt | sort)
diff <(echo "$listed") <(echo "$have") > /dev/null || {
    echo "docs/MAP.md does not list just the crates of crates.txt:"
    diff <(echo "$listed") <(echo "$have") | sed -n 's/^[<>]/&/p' || true
    failed=1
}
awk '
    FNR == NR { if (match($0, /^- `[a-z_]+`/)) place[substr($0, 4, RLENGTH - 4)] = ++count; next }
    /^[a-z_]+.*:/ {
        name = $1; sub(/:$/, "", name)
        sub(/^[^:]*:/, "")
        for (i = split($0, below, " "); i > 0; i--)
            if (below[i] in place && place[below[i]] > place[name]) {
                print "docs/MAP.md: " name " is listed before " below[i]; bad = 1
            }
    }
    END { exit bad }' docs/MAP.md crates.txt || failed=1
[ "$failed" = 0 ] || exit 1
echo "every path that the pages name is there"
