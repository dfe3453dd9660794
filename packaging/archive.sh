#!/usr/bin/env bash
# archive.sh NAME: makes crates/NAME/out/libNAME.a of the static library NAME. It is `rt lib` that does, over libraries that it proves on the way. Where rt ci
# has proved them in this tree and none of their files has changed since, they lie there without the mark by which rt lib knows its own, and it would prove
# them all once more: then the archive is made over these, by the words with which rt ci makes a program. NAME itself is proved either way.
. "$(dirname "$0")/../tests/script.sh"
name=${1:?usage: archive.sh NAME}
cd "$top"
uses() { sed -n -E "s/^$1( staticlib)?: *//p" crates.txt; } # CRATE
below=" "
walk() { # CRATE: all below it, each once
    local crate
    for crate in $(uses "$1"); do
        case $below in *" $crate "*) continue ;; esac
        [ -d "crates/$crate" ] || continue # of the kit
        walk "$crate"
        below+="$crate "
    done
}
walk "$name"
direct=$(uses "$name")
by_ci=1
for crate in $below; do
    made=crates/$crate/out/rlib
    [ -f "$made/$crate.rlib/format" ] && [ ! -e "$made/stamp" ] &&
        [ -z "$(find crates.txt "crates/$crate/src" "crates/$crate/specs" "crates/$crate/proofs" -newer "$made/$crate.rlib" -print -quit 2>/dev/null)" ] || by_ci=
done
cd "crates/$name"
if [ -z "$by_ci" ]; then
    rt lib
    exit
fi
kit=$(dirname "$(rt doc)")
words=(--extern "std=$kit/rlibs/std.rlib" -L "dependency=$kit/rlibs")
for crate in $direct; do words+=(--extern "$crate=../$crate/out/rlib/$crate.rlib"); done
for crate in $below; do words+=(-L "dependency=../$crate/out/rlib"); done
mkdir -p out
"$kit/bin/rattle" build --crate-name "$name" src/lib.rt "${words[@]}" --antt-project "$kit/rattle/logic/antt-project.json" --logic-built "$kit/logic_built" \
    --links "$name=" --crate-type staticlib --toolchain "$kit/toolchain" --backend llvm -o "out/lib$name.a"
