#!/usr/bin/env bash
# install.sh try | install ARCHIVE.. PROGRAM.. | uninstall: puts the libraries, their pages and the examples under PREFIX, and below DESTDIR
# if that is set, or takes them away again; `try` only says whether it could. PREFIX is absolute, and empty means /. So are BINDIR,
# LIBDIR, INCLUDEDIR, MANDIR and DOCDIR, which lie under PREFIX unless they are set.
# Each file, and each folder made for one, is first noted in DOCDIR/installed. Uninstalling goes by that note and nothing else.
. "$(dirname "$0")/../tests/script.sh"
cd "$top"

# A path that is absolute, without the slashes at its end.
absolute() { # NAME PATH
    local path=$2
    case $path in
    '' | /*) ;;
    *) fail "$1 is no absolute path: '$path'" ;;
    esac
    case $path in
    *[\"\'\`\\\$#]* | *[[:cntrl:]]*) fail "$1 has a character that a pkg-config file cannot hold: '$path'" ;;
    */../* | */..) fail "$1 goes up again: '$path'" ;;
    esac
    while [ "${path%/}" != "$path" ]; do path=${path%/}; done
    printf %s "$path"
}
prefix=$(absolute PREFIX "${PREFIX-/usr/local}")
bindir=$(absolute BINDIR "${BINDIR:-$prefix/bin}")
libdir=$(absolute LIBDIR "${LIBDIR:-$prefix/lib}")
includedir=$(absolute INCLUDEDIR "${INCLUDEDIR:-$prefix/include}")
mandir=$(absolute MANDIR "${MANDIR:-$prefix/share/man}")
docdir=$(absolute DOCDIR "${DOCDIR:-$prefix/share/doc/ndushavire}")
below=${DESTDIR-}
note=$docdir/installed

# ---- what goes where: a file of the tree, its place and its mode. Four captured requests go with the examples, to be tried.
requests=(tests/captured/{icscf-20-lir,scscf-12-sar,mar-33,mar-16}.hex)
sources=() places=() modes=()
goes() { # SOURCE PLACE MODE
    sources+=("$1") places+=("$2") modes+=("$3")
}
list_files() { # ARCHIVE.. PROGRAM..
    local file name
    for file in include/*.h; do goes "$file" "$includedir/${file#include/}" 644; done
    for file in man/*; do goes "$file" "$mandir/man${file##*.}/${file#man/}" 644; done
    for file in packaging/README.md docs/*.md; do goes "$file" "$docdir/${file##*/}" 644; done
    for file in examples/* "${requests[@]}"; do goes "$file" "$docdir/examples/${file##*/}" 644; done
    for file in "$@"; do
        name=${file##*/}
        case $name in
        *.a) goes "$file" "$libdir/$name" 644 && continue ;;
        check | list | maketable | move | report | showtable | take) name=ndushavire-$name ;;
        esac
        goes "$file" "$bindir/$name" 755
    done
}

# The libraries: each has a header, a manual page and a pkg-config file of its name. What a header declares: `man` finds its page by each of these names.
libraries=(ndushavire ndushavire_sh)
functions() { # LIBRARY
    sed -n 's/^\(static inline \)\{0,1\}[a-z0-9_]* \(ndushavire_[a-z_]*\)(.*/\2/p' "include/$1.h"
}

# The scripts that manual pages print are installed to be copied, too: a page and the name of its script.
scripts=(tablecheck.1:switch.sh ndushavire-check.1:vectors.sh ndushavire-move.1:move.sh ndushavire-report.1:month.sh)
script_of() { # PAGE
    awk '/^\.Ed/ { shown = 0 } /^#!\/bin\/sh$/ { shown = 1 } shown' "man/$1" | sed 's/\\e/\\/g; s/\\&//g'
}

# What pkg-config is told: folders under PREFIX by that name.
pkg_config() { # LIBRARY
    local text version
    under() { if [ "${1#"$prefix"/}" != "$1" ]; then printf '${prefix}/%s' "${1#"$prefix"/}"; else printf %s "$1"; fi; }
    version=$(header_version)
    text=$(<"packaging/$1.pc.in")
    text=${text//@PREFIX@/"$prefix"}
    text=${text//@LIBDIR@/"$(under "$libdir")"}
    text=${text//@INCLUDEDIR@/"$(under "$includedir")"}
    printf '%s\n' "${text//@VERSION@/"$version"}"
}

# ---- the note: a line `file PLACE` or `folder PLACE`, without DESTDIR. Until there is a place for it, lines are kept.
early=()
declare -A known=()
noted() { # KIND PLACE
    [ -z "${known["$1 $2"]-}" ] || return 0
    known["$1 $2"]=noted
    if [ -e "$below$docdir" ]; then printf '%s\n' "$1 $2" >>"$below$note"; else early+=("$1 $2"); fi
}
make_folder() { # PLACE
    [ -n "$1" ] && [ ! -d "$below$1" ] || return 0
    make_folder "${1%/*}"
    noted folder "$1"
    install -d "$below$1"
}

install_all() { # ARCHIVE.. PROGRAM..
    local i line library
    list_files "$@"
    for i in "${!sources[@]}"; do
        [ ! "$below${places[i]}" -ef "${sources[i]}" ] || fail "${sources[i]} would be installed over itself"
    done
    [ ! -e "$below$note" ] || while IFS= read -r line; do [ -z "$line" ] || known["$line"]=noted; done <"$below$note"
    make_folder "$docdir"
    [ ${#early[@]} = 0 ] || printf '%s\n' "${early[@]}" >>"$below$note"
    noted file "$note"
    for i in "${!sources[@]}"; do
        make_folder "${places[i]%/*}"
        noted file "${places[i]}"
        install -m "${modes[i]}" "${sources[i]}" "$below${places[i]}"
    done
    make_folder "$libdir/pkgconfig"
    for library in "${libraries[@]}"; do
        for i in $(functions "$library"); do
            noted file "$mandir/man3/$i.3"
            ln -sf "$library.3" "$below$mandir/man3/$i.3"
        done
        noted file "$libdir/pkgconfig/$library.pc"
        pkg_config "$library" >"$below$libdir/pkgconfig/$library.pc"
        chmod 644 "$below$libdir/pkgconfig/$library.pc"
    done
    for i in "${scripts[@]}"; do
        noted file "$docdir/examples/${i#*:}"
        script_of "${i%:*}" >"$below$docdir/examples/${i#*:}"
        chmod 755 "$below$docdir/examples/${i#*:}"
    done
    chmod 644 "$below$note"
}

uninstall_all() {
    local line lines
    [ -f "$below$note" ] || fail "nothing is installed there: there is no $below$note"
    mapfile -t lines < <(LC_ALL=C sort -r "$below$note")
    for line in "${lines[@]}"; do
        case $line in
        */../* | */..) fail "the note $below$note is no longer what it was: $line" ;;
        'file /'* | 'folder /'*) ;;
        *) fail "the note $below$note is no longer what it was: $line" ;;
        esac
    done
    for line in "${lines[@]}"; do
        case $line in "file $note") ;; 'file '*) rm -f "$below${line#file }" ;; esac
    done
    rm -f "$below$note"
    # Inner ones first, and only those that are empty now.
    for line in "${lines[@]}"; do
        case $line in 'folder '*) rmdir "$below${line#folder }" 2>/dev/null || true ;; esac
    done
}

case ${1-} in
try) ;;
install) install_all "${@:2}" ;;
uninstall) uninstall_all ;;
*) fail 'usage: install.sh try | install ARCHIVE.. PROGRAM.. | uninstall' ;;
esac
