#!/usr/bin/env bash
# cited.sh ROOM CC..: in an installation, whatever the README and the manual pages cite is there: each file that they name, each
# manual page. Then the README's trial, word by word. RUN, if set, is the emulator.
. "$(dirname "$0")/script.sh"
make_room "$1" trial
shift
prefix=$room/prefix
cited=0
make -s -C "$top" install PREFIX="$prefix" DESTDIR=
readme=$prefix/share/doc/ndushavire/README.md
there() { # FILE BY
    [ -e "$1" ] || fail "${2#"$prefix"/} cites ${1#"$prefix"/}, which is not installed"
    cited=$((cited + 1))
}
# In the README: every word in backquotes that has a slash or a file's ending.
while read -r file; do
    there "${readme%/*}/$file" "$readme"
done < <(grep -o '`[^` ]*`' "$readme" | tr -d '`' | grep -E '/|\.(md|c|h|txt|hex|answer)$' | grep -v -E '=|^share/' | sort -u)
mapfile -t pages < <(find "$prefix/share/man" -type f) # and not the links to one
# In the manual pages: every PREFIX/.. and every name of a page. A page that names a file of the examples or of the documents by its
# last name alone must name it whole as well.
for page in "${pages[@]}"; do
    while read -r file; do
        there "$prefix/${file#PREFIX/}" "$page"
    done < <(grep -o 'PREFIX/[A-Za-z0-9_./-]*' "$page" | sort -u)
    while read -r name; do
        grep -q -E "PREFIX/[a-z/]*/$name( |\$)" "$page" || fail "${page#"$prefix"/} names $name and not where it is installed"
    done < <(cd "$prefix/share/doc/ndushavire" && for name in *.md examples/*; do
        ! grep -q -w -F "Pa ${name#examples/}" "$page" || echo "${name#examples/}"
    done)
done
for page in "$readme" "${pages[@]}"; do
    while read -r name section; do
        case $name in flock | sync) continue ;; esac # of the system
        there "$prefix/share/man/man$section/$name.$section" "$page"
    done < <(case $page in
    *.md) grep -o -E '[a-z_-]+\([137]\)' "$page" | tr '()' '  ' ;;
    *) sed -n 's/^\.Xr \([a-z_-]*\) \([0-9]\).*/\1 \2/p' "$page" ;;
    esac | sort -u)
done
[ "$cited" -gt 20 ] || fail "only $cited citations were found"

# The trial. PREFIX is here, and what is run needs the emulator on some machines; its shell is whatever sh is, dash for one.
export PKG_CONFIG_PATH=$prefix/lib/pkgconfig PATH=$prefix/bin:$PATH
sed -n '/^## Try it/,/^## /s/^    \$ //p' "$readme" >"$room/commands"
[ "$(wc -l <"$room/commands")" -ge 8 ] || fail 'the README has no trial'
cc=$*
sed -e "s|PREFIX|$prefix|" -e "s|^cc \(.*pkg-config\)|$cc \1|" -e "s#^\./\(decide\|userdata\|move\|report\|take\)#${RUN:-} ./\1#" "$room/commands" >"$room/trial.sh"
(cd "$room/trial" && sh -eu ../trial.sh) >"$room/said" || fail 'the trial in the README fails'
grep -q -x 'answered, 168 bytes' "$room/said" || fail 'the trial gives another answer'
grep -q -x 'vector block 5 used' "$room/said" || fail 'the trial uses no vector'
fault=$(sed -n 's/^    \(B[0-9]* at byte .*\)/\1/p' "$readme")
[ -n "$fault" ] && grep -q -x -F -e "$fault" "$room/said" || fail 'the trial blames another AVP'
told=$(sed -n 's/^    \(<?xml .*\)/\1/p' "$readme")
[ -n "$told" ] && grep -q -x -F -e "$told" "$room/said" || fail 'the trial tells a voicemail box something else'
report=$(sed -n '/^    \$ \.\/report/,/^    \$ /{/^    \$ /d; s/^    //p; /^$/p}' "$readme")
[ -n "$report" ] && [[ $(cat "$room/said") = *"$report"* ]] || fail 'the trial reports other numbers'
grep -q -x 'public=sip:erin@isle private=erin@isle' "$room/said" || fail 'the trial shows no table'
grep -q -x '3 unused, 0 used, private=erin@isle' "$room/said" || fail 'the trial counts no vectors'
moved=$(sed -n 's/^    \(moved to edition .*\)/\1/p' "$readme")
[ -n "$moved" ] && [ "$(tail -n 3 "$room/said" | head -n 2)" = "$moved" ] || fail 'the trial moves no table'
[ "$(tail -n 1 "$room/said")" = "$(sed -n 's/^    \(taken over, .*\)/\1/p' "$readme")" ] || fail 'the trial takes no table over'
echo "cited.sh: $cited citations of installed things, and the README's trial"
