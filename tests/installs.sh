#!/usr/bin/env bash
# installs.sh ROOM CC..: installs into folders of ROOM as users and packagers do, compares what is there with what should be,
# builds examples with what pkg-config says and nothing else, checks the sample with one, and sees that uninstalling takes away what
# was installed and nothing more. What must not be a prefix is refused, and the tree stays as it is. RUN, if set, is the emulator.
. "$(dirname "$0")/script.sh"
make_room "$1" new
shift
compiler=("$@")
command -v pkg-config >/dev/null || fail 'pkg-config is missing (Debian: pkg-config)'
programs=(bin/ndushavire-maketable bin/ndushavire-showtable)
[ "$(uname -m)" != x86_64 ] || programs+=(bin/answer bin/ndushavire-check bin/ndushavire-list bin/ndushavire-move bin/ndushavire-report bin/ndushavire-take bin/tablecheck)
# The functions of each library, which its page names.
libraries=(ndushavire ndushavire_sh)
functions_of() { sed -n -E '/^[a-z]/s/^[^(]* (ndushavire_[a-z_]+)\(.*/\1/p' "$top/include/$1.h"; } # LIBRARY
functions=$(for library in "${libraries[@]}"; do functions_of "$library"; done)
[ "$(wc -l <<<"$functions")" -ge 20 ] || fail "the headers have only $functions"
for library in "${libraries[@]}"; do
    for name in $(functions_of "$library"); do
        sed -n '/^\.Sh NAME/,/^\.Nd/p' "$top/man/$library.3" | grep -q -E "^\.Nm $name( ,)?\$" || fail "$library(3) does not name $name"
    done
done
version=$(header_version)
quiet() { make -s -C "$top" "$@"; }

# What should be there under a prefix; of documents, pages and examples whatever the tree has.
{
    printf '%s\n' "${programs[@]}" include/ndushavire{,_sh}.h lib/libndushavire{,_sh}.a lib/pkgconfig/ndushavire{,_sh}.pc \
        share/doc/ndushavire/{README.md,installed}
    printf 'share/man/man3/%s.3\n' $functions
    (cd "$top" && printf 'share/doc/ndushavire/%s\n' docs/*.md | sed 's|/docs/|/|')
    printf 'share/doc/ndushavire/examples/%s.sh\n' switch vectors move month
    (cd "$top" && printf 'share/doc/ndushavire/%s\n' examples/* examples/{icscf-20-lir,scscf-12-sar,mar-33,mar-16}.hex)
    (cd "$top" && printf '%s\n' man/* | sed 's|^man/\(.*\)\.\(.\)$|share/man/man\2/\1.\2|')
} | sed '/^$/d' | sort >"$room/expected"
for name in share/man/man1/{answer,tablecheck,ndushavire-{check,list,maketable,move,report,showtable,take}}.1 share/man/man3/ndushavire{,_value,_sh,_sh_decide}.3 \
    share/man/man7/ndushavire.7 share/doc/ndushavire/examples/{move.c,store.h,userdata.c}; do
    grep -q -x -F "$name" "$room/expected" || fail "the tree has no $name"
done
files_in() { (cd "$1" && find . ! -type d | sed 's|^\./||' | LC_ALL=C sort); }
LC_ALL=C sort -o "$room/expected" "$room/expected"

# Installs, and finds the expected files under ROOT; the pkg-config file says these folders.
installed() { # ROOT PREFIX LIBDIR INCLUDEDIR VARIABLE=..
    quiet install "PREFIX=$2" "${@:5}"
    files_in "$1" >"$room/found"
    diff "$room/expected" "$room/found" >&2 || fail "other files than expected under $1"
    local of library
    for library in "${libraries[@]}"; do
        for of in "prefix=$2" "libdir=$3" "includedir=$4"; do
            [ "$(PKG_CONFIG_PATH=$1/lib/pkgconfig pkg-config --variable="${of%%=*}" "$library")" = "${of#*=}" ] ||
                fail "pkg-config does not say $of of $library"
        done
        [ "$(PKG_CONFIG_PATH=$1/lib/pkgconfig pkg-config --modversion "$library")" = "$version" ] || fail "pkg-config does not say version '$version' of $library"
    done
    [ -z "$(find "$1" -type f ! -perm -444)" ] && [ -z "$(find "$1" -type d ! -perm 755)" ] || fail "not for all to read: $(find "$1" ! -perm -444)"
    tried=$((tried + 1))
}
# Uninstalls, and nothing is left of ROOT.
uninstalled() { # ROOT VARIABLE=..
    quiet uninstall "${@:2}"
    [ ! -e "$1" ] || fail "left behind: $(find "$1")"
    tried=$((tried + 1))
}

umask 077
installed "$room/prefix" "$room/prefix" "$room/prefix/lib" "$room/prefix/include" DESTDIR=
umask 022
installed "$room/staged/opt/ndushavire" /opt/ndushavire /opt/ndushavire/lib /opt/ndushavire/include "DESTDIR=$room/staged"
uninstalled "$room/staged/opt" PREFIX=/opt/ndushavire "DESTDIR=$room/staged"
# An empty prefix is /, and both mean the same.
installed "$room/root" '' /lib /include "DESTDIR=$room/root"
quiet uninstall PREFIX=/ "DESTDIR=$room/root"
quiet install PREFIX=/ "DESTDIR=$room/root"
files_in "$room/root" | diff "$room/expected" - >&2 || fail 'PREFIX=/ has other files than PREFIX='
quiet uninstall PREFIX= "DESTDIR=$room/root"
[ -z "$(find "$room/root" -mindepth 1)" ] || fail "left behind: $(find "$room/root")"
odd="$room/a & b|c, d"
installed "$odd" "$odd" "$odd/lib" "$odd/include" DESTDIR=
installed "$odd" "$odd" "$odd/lib" "$odd/include" DESTDIR= # and once more over itself

# A packager's folders.
quiet install PREFIX=/usr LIBDIR=/usr/lib/x86_64-linux-gnu/ MANDIR=/man INCLUDEDIR=/usr/include/island DOCDIR=/usr/share/doc/n \
    "DESTDIR=$room/package"
for name in usr/lib/x86_64-linux-gnu/{libndushavire{,_sh}.a,pkgconfig/ndushavire{,_sh}.pc} man/man3/ndushavire_{check,sh_decide}.3 man/man1/answer.1 \
    usr/include/island/ndushavire{,_sh}.h usr/share/doc/n/{installed,README.md,examples/check.c}; do
    [ -e "$room/package/$name" ] || fail "there is no $name of a package"
done
[ "$(grep -l -x -F 'libdir=${prefix}/lib/x86_64-linux-gnu' "$room/package/usr/lib/x86_64-linux-gnu/pkgconfig/"* | wc -l)" = 2 ] ||
    fail 'a pkg-config file has another libdir'
[ "$(files_in "$room/package" | wc -l)" = "$(wc -l <"$room/expected")" ] || fail 'a package has other files'
uninstalled "$room/package/usr" PREFIX=/usr DOCDIR=/usr/share/doc/n "DESTDIR=$room/package"
uninstalled "$room/package/man" "PREFIX=$odd" DESTDIR=
[ ! -e "$odd" ] || fail "left behind: $(find "$odd")"

# The programs have their names and may be run, on whichever machine.
mkdir "$room/made"
touch "$room/made/"{answer,check,maketable,move,report,showtable,take}
PREFIX=$room/named DESTDIR='' "$top/packaging/install.sh" install "$top/target/staticlib/libndushavire"{,_sh}.a "$room/made/"*
for name in answer ndushavire-{check,maketable,move,report,showtable,take}; do [ -x "$room/named/bin/$name" ] || fail "there is no $name to be run"; done
[ "$(find "$room/named/bin" -type f | wc -l)" = 7 ] || fail 'other programs than the seven given'
uninstalled "$room/named" "PREFIX=$room/named" DESTDIR=

# What is refused alters nothing: neither the tree nor what is installed.
tree() { (cd "$top" && find . \( -path ./target -o -path ./reference/target -o -path ./.git \) -prune -o -type f -exec cksum {} + | sort); }
tree >"$room/tree"
files_in "$room/prefix" >"$room/before"
refused() { # VARIABLE=..
    local what
    for what in install uninstall; do
        ! quiet "$what" "$@" 2>"$room/errors" || fail "make $what $*: not refused"
        grep -q "^packaging/install.sh: " "$room/errors" || fail "make $what $*: says '$(cat "$room/errors")'"
        tree | diff "$room/tree" - >&2 || fail "make $what $*: alters the tree"
        files_in "$room/prefix" | diff "$room/before" - >&2 || fail "make $what $*: alters another installation"
        tried=$((tried + 1))
    done
}
refused PREFIX=. DESTDIR=
refused PREFIX=target/test/installs/relative DESTDIR=
refused 'PREFIX=here /usr' DESTDIR=
refused "PREFIX=$room/prefix/../other" DESTDIR=
refused "PREFIX=$room/a\"b" DESTDIR=
refused "PREFIX=$room/a#b" DESTDIR=
refused "PREFIX=$room/other" LIBDIR=lib64 DESTDIR=
refused "PREFIX=$room/other" MANDIR=man DESTDIR=
refused "PREFIX=$top" DESTDIR=
refused PREFIX= "DESTDIR=$top"
[ ! -e "$top/relative" ] && [ ! -e "$room/other" ] || fail 'something was made for a refused prefix'
! quiet uninstall PREFIX= DESTDIR= 2>/dev/null || fail 'uninstalling where nothing is installed is not refused'
tree | diff "$room/tree" - >&2 || fail 'make uninstall PREFIX= alters the tree'

# An example, from what is installed and nothing else; the flags are for a shell to read.
built() { # PREFIX
    local of flags parts
    cp "$1/share/doc/ndushavire/examples/"* "$room/new/"
    for of in check:ndushavire userdata:ndushavire_sh daemon:ndushavire_sh; do
        flags=$(PKG_CONFIG_PATH=$1/lib/pkgconfig pkg-config --cflags --libs "${of#*:}")
        parts=${of%:*}.c
        [ "$parts" != daemon.c ] || parts='daemon.c files.c log.c row.c taking.c'
        (cd "$room/new" && eval "\"\${compiler[@]}\" -std=c99 -o ${of%:*} $parts $flags")
    done
    tried=$((tried + 1))
}
says() { # PROGRAM ARGUMENT..
    local said
    said=$("$@") || fail "$1 fails"
    [ "$said" = $'sound, 9 records\nvectors sound, 9 blocks' ] || fail "$1 says '$said'"
    tried=$((tried + 1))
}
built "$room/prefix"
cd "$room/new"
for name in table profile; do "$room/prefix/bin/ndushavire-maketable" "$name" households.txt >"$name"; done
"$room/prefix/bin/ndushavire-maketable" vectors vectors.txt >vectors
"$room/prefix/bin/ndushavire-showtable" table profile | grep -q '^public=sip:bob@isle ' || fail 'ndushavire-showtable does not show the sample'
says ${RUN:+"$RUN"} ./check table profile vectors
${RUN:+"$RUN"} ./userdata table profile voicemail.hex | grep -q '<SCSCFName>sip:scscf1.isle:6060</SCSCFName>' || fail 'userdata does not tell of bob'
${RUN:+"$RUN"} ./daemon --help | grep -q '^usage: daemon ' || fail 'the daemon does not show how it is used'
# Each name of a header leads to its library's page.
for library in "${libraries[@]}"; do
    for name in $(functions_of "$library"); do
        cmp "$room/prefix/share/man/man3/$name.3" "$room/prefix/share/man/man3/$library.3" >&2 || fail "$name(3) is another page"
    done
done
if [ -e "$room/prefix/bin/answer" ]; then
    says "$room/prefix/bin/tablecheck"
    says "$room/prefix/bin/ndushavire-check" table profile vectors
    [ "$("$room/prefix/bin/ndushavire-report" table profile vectors /dev/null | tail -n 1)" = 'the file was read to its end, 0 bytes' ] ||
        fail 'ndushavire-report does not read a file of no requests'
    [ "$("$room/prefix/bin/ndushavire-move" forward 7 table profile moved)" = 'moved to edition 2, 9 records, issue 7' ] && [ -f moved ] ||
        fail 'ndushavire-move does not move the sample'
    [ "$("$room/prefix/bin/ndushavire-take" table moved profile)" = 'taken over, 9 records, issue 7' ] && cmp table moved >&2 ||
        fail 'ndushavire-take does not take the moved sample over'
    [ "$("$room/prefix/bin/ndushavire-list" export moved profile list.csv)" = "exported, 9 records, $(wc -c <list.csv) bytes" ] ||
        fail 'ndushavire-list does not export the moved sample'
    [ "$("$room/prefix/bin/ndushavire-list" import list.csv moved profile again)" = 'imported, 9 records, issue 7' ] && cmp moved again >&2 ||
        fail 'ndushavire-list does not give the moved sample back'
    rm moved list.csv again
    refused=$(head -c 19 /dev/zero | "$room/prefix/bin/answer")
    [ "$refused" = 'refused 2' ] || fail "answer says '$refused' of 19 bytes"
fi
quiet install "PREFIX=$odd" DESTDIR=
built "$odd"
says ${RUN:+"$RUN"} ./check table profile vectors
uninstalled "$odd" "PREFIX=$odd" DESTDIR=

# Where others have files too, or had the folder first, these stay.
mkdir -p "$room/prefix/sbin" "$room/shared/include"
echo mine >"$room/prefix/lib/other.a"
echo mine >"$room/prefix/share/doc/ndushavire/notes"
quiet uninstall "PREFIX=$room/prefix" DESTDIR=
(cd "$room/prefix" && find . | LC_ALL=C sort) >"$room/found"
printf '%s\n' . ./lib ./lib/other.a ./sbin ./share ./share/doc ./share/doc/ndushavire ./share/doc/ndushavire/notes | diff - "$room/found" >&2 ||
    fail 'uninstalling took more or less than what was installed'
quiet install "PREFIX=$room/shared" DESTDIR=
quiet uninstall "PREFIX=$room/shared" DESTDIR=
[ "$(cd "$room/shared" && find . | LC_ALL=C sort | tr '\n' ' ')" = '. ./include ' ] ||
    fail "of folders that were there these are left: $(find "$room/shared")"
echo "installs.sh: $(wc -l <"$room/expected") files installed, $tried trials of installing and uninstalling, examples built from them"
