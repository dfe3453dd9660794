#!/usr/bin/env bash
# spreadsheet.sh ROOM MAKETABLE LIST..: what others' programs make of a list, beside what docs/LIST.md says of them: Python's csv, and LibreOffice, which it
# installs from Debian as root. LIST are the words that run the program ndushavire-list. As each saves it, a list is refused by 14, with the line that the page
# says, or is the list as it was. The commands of the page put it into its form again; with the settings of the page the table comes back, and without them
# the names that were altered are told. Status 0 if all is so, 1 if not, 2 if LibreOffice could not run.
. "$(dirname "$0")/script.sh"
make_room "$1" saved
maketable=$(realpath "$2")
shift 2
list=("${@:1:$#-1}" "$(realpath "${@: -1}")")
page=$top/docs/LIST.md
cd "$room"
"$tests/cells.py" text >text
"$maketable" table text >table
"$maketable" profile text >profile
"${list[@]}" export table profile list.csv
# What the page prints to put a list into its form again.
awk '/^    import csv, sys$/ { shown = 1 } /^$/ { shown = 0 } shown' "$page" | sed 's/^    //' >form.py
[ "$(wc -l <form.py)" -ge 4 ] || fail 'docs/LIST.md has no program that puts a list into its form'
formed() { rm -f formed.csv && python3 form.py "$1" formed.csv; } # FILE
# An import of FILE is refused by 14 with this line, if one is given, and leaves nothing.
refused() { # FILE ABOUT [LINE]
    local status=0
    "${list[@]}" import "$1" table profile made >said 2>errors || status=$?
    [ "$status" = 14 ] && [ ! -e made ] && grep -q "^refused 14, line ${3-[0-9]*} " said || fail "$2: import ends with status $status: $(cat said errors)"
    echo "spreadsheet.sh: $2: $(head -n 1 said)"
    tried=$((tried + 1))
}
# The list in its form is the one that was exported, and gives the table back.
comes_back() { # FILE ABOUT
    formed "$1" || fail "$2: it is not put into its form"
    "$tests/cells.py" altered list.csv formed.csv || fail "$2: cells are altered"
    cmp list.csv formed.csv >&2 || fail "$2: its form is another"
    rm -f made
    "${list[@]}" import formed.csv table profile made >said && cmp table made >&2 || fail "$2: another table comes back"
    rm made
    tried=$((tried + 1))
}

# ---- Python's csv reads every cell as it is stored; what it writes is refused, and put into its form again
"$tests/cells.py" cells list.csv table || fail "Python's csv reads other cells than the table has"
comes_back list.csv 'the list as it was exported'
for of in lf:1 mark:1 all:1 few:2 unix:1 zeros:2; do
    "$tests/cells.py" spoil "${of%:*}" list.csv >"${of%:*}.csv"
    refused "${of%:*}.csv" "saved by Python, ${of%:*}" "${of#*:}"
    comes_back "${of%:*}.csv" "saved by Python, ${of%:*}"
done

# ---- LibreOffice: the fields of its filter are separator, quote, UTF-8, first line, columns, language, and on the way in `quoted fields as text` and `detect
# special numbers`, on the way out `quote all text` and `as shown`
if ! command -v soffice >/dev/null && [ "$(id -u)" = 0 ]; then
    apt-get update -q && DEBIAN_FRONTEND=noninteractive apt-get install -y -q --no-install-recommends libreoffice-calc-nogui || true
fi
command -v soffice >/dev/null || {
    echo "spreadsheet.sh: $tried lists of Python; LibreOffice is missing (Debian: libreoffice-calc-nogui), and was not tried" >&2
    exit 2
}
filter='Text - txt - csv (StarCalc)'
saved_by_office() { # IN OUT: the file saved/list.csv
    rm -f saved/list.csv
    timeout 300 soffice --headless "-env:UserInstallation=file://$room/office" "--infilter=$filter:$1" --convert-to "csv:$filter:$2" --outdir saved list.csv \
        >office.log 2>&1 && [ -s saved/list.csv ] || fail "LibreOffice saves nothing: $(cat office.log)"
}
saved_by_office 44,34,76,1,,1033,true,false 44,34,76,1,,1033,true,false
refused saved/list.csv 'saved by LibreOffice, with the settings of the page' 1
comes_back saved/list.csv 'saved by LibreOffice, with the settings of the page'
saved_by_office 44,34,76,1,,1033,false,true 44,34,76,1,,1033,false,true
refused saved/list.csv 'saved by LibreOffice, without them' 1
formed saved/list.csv || fail 'saved by LibreOffice, without them: it is not put into its form'
refused formed.csv 'saved by LibreOffice without them, and put into its form'
! "$tests/cells.py" altered list.csv formed.csv >altered || fail 'LibreOffice alters no name without the settings of the page, which says that it does'
echo "spreadsheet.sh: LibreOffice without the settings alters $(wc -l <altered) cells:"
sed 's/^/    /' altered
tried=$((tried + 1))
echo "spreadsheet.sh: $tried lists of Python and LibreOffice, each as docs/LIST.md says"
