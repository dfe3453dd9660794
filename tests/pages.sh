#!/usr/bin/env bash
# pages.sh: make help has a line for each target and no other; every `make X` that a page names is a target; README.md names the kit that
# KIT-ID pins and the Rust that reference/Cargo.toml asks for; the map in docs/ARCHITECTURE.md has every crate, and no arrow that crates.txt has not;
# no line of a page has 200 characters, but in docs/PORT.md, whose tables quote contracts whole. What the pages quote and name is pages.py's.
. "$(dirname "$0")/script.sh"
cd "$top"
targets=$(sed -n 's/^\.PHONY: //p' Makefile | tr ' ' '\n' | sort)
diff <(echo "$targets") <(make -s help | cut -d ' ' -f 1 | sort) >&2 || fail 'make help has other lines than there are targets'
named=$({ grep -h -o -E '`make [a-z-]+' README.md docs/*.md man/* && sed -n 's/^    make \([a-z-]*\).*/`make \1/p' README.md; } | cut -d ' ' -f 2 | sort -u)
[ -n "$named" ] || fail 'no page names a target'
for name in $named; do
    grep -q -x -F -e "$name" <<<"$targets" || fail "a page names \`make $name\`, which is no target"
done
grep -q -F "\`$(cat KIT-ID)\`" README.md || fail "README.md does not name the kit '$(cat KIT-ID)'"
rust=$(sed -n 's/^rust-version = "\(.*\)"$/\1/p' reference/Cargo.toml)
grep -q -F "rustc $rust or newer" README.md || fail "README.md does not ask for rustc $rust"
map=$(sed -n '/^## The map/,/^[A-Z][a-z]* the left/p' docs/ARCHITECTURE.md | grep -E '^    ')
arrows=0
while read -r crate _ below; do
    for on in ${below//,/ }; do
        grep -q -E "^$crate( staticlib)?:.* $on( |\$)" crates.txt || fail "the map has an arrow from $crate to $on, and crates.txt has none"
        arrows=$((arrows + 1))
    done
done < <(grep -o -E '[a-z_]+ → [a-z_]+(, [a-z_]+)*' <<<"$map")
for crate in $(sed -n -E 's/^([a-z_]+)( staticlib)?:.*/\1/p' crates.txt); do
    grep -q -E "(^|  )$crate( →|$|  )" <<<"$map" || fail "the map has no crate $crate"
done
pages=(README.md packaging/README.md docs/*.md)
for page in "${pages[@]}"; do
    [ "$page" = docs/PORT.md ] || ! LC_ALL=C.UTF-8 grep -n -E '^.{200}' "$page" >&2 || fail "a line of $page has 200 characters"
done
echo "pages.sh: $(wc -l <<<"$targets") targets, each with its line; $arrows arrows; ${#pages[@]} pages"
