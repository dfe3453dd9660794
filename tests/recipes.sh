#!/usr/bin/env bash
# recipes.sh ROOM PROGRAM CC..: every command and every script that README.md, TABLE.md and the manual pages print, taken from the page itself and
# run on the one layout that ndushavire(7) has, in the order in which an operator meets them. What a page shows below a command must come of
# it, a line `..` standing for any lines. Then each command of each script fails in turn, and the files are whole after each.
# PROGRAM are the words that run answer and tablecheck where they are not installed; RUN, if set, is the emulator; CC makes x86-64 code.
# As root the daemon's folder is nobody's, and the scripts run as nobody; else both are the user's own.
. "$(dirname "$0")/script.sh"
. "$tests/blocks.sh"
. "$tests/messages.sh"
shopt -s lastpipe
umask 022
make_room "$1"
program=$2
shift 2
disk=$(mktemp -d) # to which nobody comes, also where the tree is closed to him
rooms+=("$disk")
chmod 755 "$disk"
tree=$disk/tree bin=$disk/bin prefix=$disk/prefix here=$disk/here
ran=0 trials=0
command -v flock >/dev/null || fail 'flock is missing (Debian: util-linux)'

# ---- what the pages print

# The displays of a manual page, all or those below a heading, as they are printed, an empty line behind each.
displays() { # PAGE [HEADING]
    awk -v heading="${2-}" '/^\.S[hs] / { within = heading == "" || substr($0, 5) == heading }
        /^\.Ed/ && shown { shown = 0; print "" } within && shown; /^\.Bd/ && within { shown = 1 }' "$top/man/$1" | sed 's/\\e/\\/g; s/\\&//g'
}
# The indented lines below a heading of a page in Markdown.
indented() { awk -v heading="$2" '/^##+ / { within = $0 == heading } within' "$top/$1" | sed -n 's/^    //p; /^$/p'; } # PAGE HEADING
# The one script of a manual page.
script_of() { # PAGE FILE
    displays "$1" | sed -n '/^#!\/bin\/sh$/,/^$/p' | sed '/^$/d' >"$2"
    [ "$(grep -c '^#!' "$2")" = 1 ] || fail "$1 has no script, or two"
}
# Whether what was SAID is what is SHOWN.
as_shown() { # SHOWN SAID
    local line at=0 any=0 said
    mapfile -t said <"$2"
    while IFS= read -r line; do
        if [ "$line" = .. ]; then
            any=1
            continue
        fi
        while [ "$any" = 1 ] && [ "$at" -lt "${#said[@]}" ] && [ "${said[at]}" != "$line" ]; do at=$((at + 1)); done
        [ "$at" -lt "${#said[@]}" ] && [ "${said[at]}" = "$line" ] || return 1
        at=$((at + 1)) any=0
    done <"$1"
    [ "$any" = 1 ] || [ "$at" = "${#said[@]}" ]
}
# Runs the commands on standard input, lines that begin with `$ ` or `# `, in one shell in FOLDER; one that ends in | or && goes on in the next line.
# What stands below a command up to an empty line must come of it.
session() { # ABOUT FOLDER
    local line number=0 goes_on=0 below=0 at=$room/session
    rm -rf "$at"
    mkdir "$at"
    while IFS= read -r line; do
        if [[ $line = [\$\#]\ * ]]; then
            number=$((number + 1)) below=1
            printf '{ %s\n' "${line#? }" >"$at/$number.command"
            : >"$at/$number.shown"
        elif [ "$goes_on" = 1 ]; then
            printf '%s\n' "$line" >>"$at/$number.command"
        elif [ -z "$line" ]; then
            below=0
        elif [ "$below" = 1 ]; then
            printf '%s\n' "$line" >>"$at/$number.shown"
        fi
        [[ $line = *'|' || $line = *'&&' ]] && goes_on=1 || goes_on=0
    done
    [ "$number" -gt 0 ] || fail "$1: no command is printed"
    for ((n = 1; n <= number; n++)); do
        cat "$at/$n.command"
        printf '} >"%s/%s.said"\n' "$at" "$n"
    done >"$at/all"
    (cd "$2" && sh -eu "$at/all" 2>"$at/errors") || fail "$1: status $?: $(cat "$at/errors")"
    for ((n = 1; n <= number; n++)); do
        [ ! -s "$at/$n.shown" ] || as_shown "$at/$n.shown" "$at/$n.said" || fail "$1: $(sed 's/^{ //' "$at/$n.command") gives $(cat "$at/$n.said")"
    done
    ran=$((ran + number))
}
wrap() { # FILE WORDS
    printf '#!/bin/sh\nexec %s "$@"\n' "$2" >"$1"
    chmod 755 "$1"
}
await() { # FILE PATTERN ABOUT
    for ((tries = 0; tries < 3000; tries++)); do
        ! grep -q -e "$2" "$1" 2>/dev/null || return 0
        sleep 0.02
    done
    fail "$3: $(cat "$1")"
}

# ---- README's trial, in a tree like this one
mkdir -p "$bin" "$tree/target/c" "$tree/target/c99" "$tree/target/staticlib"
ln -s "$top/examples" "$top/include" "$top/tests" "$tree/"
ln -s "$top/target/c/maketable" "$tree/target/c/"
ln -s "$top/target/staticlib/libndushavire"{,_sh}.a "$tree/target/staticlib/"
for name in check decide userdata; do wrap "$tree/target/c99/$name" "${RUN-} '$top/target/c99/$name'"; done
compiler="$(command -v "$1") ${*:2}"
for name in cc gcc; do wrap "$bin/$name" "$compiler"; done
printf '#!/bin/sh\nexec %s +%%s-%%N\n' "$(command -v date)" >"$bin/date" # no two switches have one date
chmod 755 "$bin/date"
wrap "$bin/vi" "sed -i 's/^public=sip:alice@/public=sip:alicia@/'"
PATH=$bin:$PATH
indented README.md '## Try it' | session "README's trial" "$tree"
service=$tree/service
[ "$(stat -c %a "$service/cards" "$service/cards/vectors" | tr '\n' ' ')" = '700 600 ' ] || fail "README's trial makes vectors that others may read"

# ---- README's daemon, which is asked where bob is
indented README.md '### A daemon to copy' >"$room/copy"
grep '^\$ gcc ' "$room/copy" | session "README's daemon" "$tree"
start=$(sed -n 's/^\$ \(.*\.\/daemon .*\)/\1/p' "$room/copy") shown=$(sed -n '/\.\/daemon /{n;p}' "$room/copy")
[ -n "$start" ] && [ -n "$shown" ] || fail 'README starts no daemon'
ran=$((ran + 1))
# It has a process group of its own, to be ended by, and a port that is free.
serve() {
    rm -f "$room/log"
    (cd "$tree" && exec setsid sh -c "$(sed "s|-p 3868|-p 0|; s|\./daemon|${RUN:+$RUN }&|" <<<"$start")" 2>"$room/log") &
    daemon=$!
    await "$room/log" 'listening on ' 'the daemon does not start'
    port=$(sed -n 's/.* port \([0-9]*\),.*/\1/p' "$room/log")
    [ "$(head -n 1 "$room/log" | sed "s/ port $port,/ port 3868,/")" = "$shown" ] || fail "the daemon says '$(cat "$room/log")'"
}
end_daemon() {
    kill -TERM -- "-$daemon"
    wait "$daemon" || true
    await "$room/log" 'daemon: ended' 'the daemon does not end'
}
bytes() { printf %b "$(tr -d ' \n' | sed 's/../\\x&/g')"; }
digits() { od -An -v -tx1 | tr -d ' \n'; }
next_message() { # of the socket 3, in digits
    local head
    head=$(head -c 4 <&3 | digits)
    printf %s "$head"
    head -c $((0x${head:2} - 4)) <&3 | digits
}
question=$tests/captured/icscf-20-lir.hex
asks() { # [OPTION..]: of the daemon it gets what decide gives with these
    local capabilities expected cea lia
    capabilities=$from$(avp 257 40 - 00017F000001)$(avp 266 40 - 000028AF)$(avp 269 00 - "$(text client)")$application
    expected=$("$tree/target/c99/decide" "$@" "$service/live/table" "$service/live/profile" "$service/cards/vectors" "$question")
    exec 3<>"/dev/tcp/127.0.0.1/$port"
    printf '01%06X80000101000000000000000100000002%s' $((20 + ${#capabilities} / 2)) "$capabilities" | bytes >&3
    cea=$(next_message)
    [[ $cea = 01*0000010c4000000c000007d1* ]] || fail "the daemon does not greet: $cea"
    sed '/^#/d' "$question" | bytes >&3
    lia=$(next_message)
    exec 3>&-
    [ "$lia" = "$(sed 1d <<<"$expected" | tr -d ' \n' | tr A-F a-f)" ] || fail "the daemon says '$lia' of bob, and decide '$expected'"
}
serve
asks

# ---- the installation, and a daemon built from it, as README and ndushavire(3) say
install=$(sed -n 's/^    \(make install PREFIX=\)[^ ]*.*/\1/p' "$top/README.md")
[ -n "$install" ] || fail 'README installs nothing'
(cd "$top" && $install"$prefix" DESTDIR= >"$room/said") || fail "$install: status $?: $(cat "$room/said")"
PATH=$prefix/bin:$PATH
export PKG_CONFIG_PATH=$prefix/lib/pkgconfig
mkdir "$disk/made"
cp "$top/target/c99/"{check,move,report,take} "$top/target/bin/"{answer,tablecheck} "$disk/made/"
for name in check move report take; do [ -e "$prefix/bin/ndushavire-$name" ] || wrap "$bin/ndushavire-$name" "${RUN-} '$disk/made/$name'"; done
for name in answer tablecheck; do [ -e "$prefix/bin/$name" ] || wrap "$bin/$name" "$program '$disk/made/$name'"; done
examples=$prefix/share/doc/ndushavire/examples
built() { # FOLDER DAEMON COMMAND: the daemon, without arguments, says how it is used
    local status=0
    [ -n "$3" ] || fail 'README or ndushavire(3) builds no daemon'
    (cd "$1" && rm -f "$2" && sh -c "$3") || fail "$3: status $?"
    ${RUN-} "$1/$2" 2>/dev/null || status=$?
    [ "$status" = 2 ] || fail "$3: its daemon ends with status $status without arguments"
}
built "$tree" service/daemon "$(sed -n 's/^    \(gcc .*pkg-config.*\)/\1/p' "$top/README.md")"
for name in $(cd "$tree" && ls -d ./* | sed 's|^\./||'); do # what README's commands make is no part of the tree
    [ -e "$top/$name" ] && [ "$name" != service ] || grep -q -x -F "/$name/" "$top/.gitignore" || fail "README's commands make $name, and .gitignore has it not"
done
cp -r "$examples" "$disk/built"
built "$disk/built" a.out "$(displays ndushavire.3 EXAMPLES | grep '^cc ')"

# ---- ndushavire(7): the folder, and its user
user=ndushavire owner=(-e 's/runuser -u ndushavire -- //; s/ -o ndushavire / /')
[ "$(id -u)" != 0 ] || { user=nobody owner=(-e 's/ndushavire --/nobody --/; s/-o ndushavire/-o nobody/'); }
folder=$disk/srv
for page in tablecheck.1:switch.sh ndushavire-check.1:vectors.sh ndushavire-move.1:move.sh ndushavire-report.1:month.sh; do
    script_of "${page%:*}" "$room/script"
    cmp "$room/script" "$examples/${page#*:}" >&2 && [ -x "$examples/${page#*:}" ] || fail "the script of ${page%:*} is not installed as it stands there"
    grep -q -F "${page#*:}" "$top/man/${page%:*}" || fail "${page%:*} does not name its script ${page#*:}"
done
give_scripts() { cp "$examples/"*.{sh,txt} "$1/"; } # FOLDER
here_too() { sed "${owner[@]}" -e "s|/srv/ndushavire|$folder|; s|/usr/local/share|$prefix/share|"; }
displays ndushavire.7 EXAMPLES >"$room/folder"
grep -q '^# useradd .* ndushavire$' "$room/folder" || fail 'ndushavire(7) makes no user'
ran=$((ran + 1)) # the user is nobody, whom every system has
sed '/^# useradd /d; /mkdir -p tables/,$d' "$room/folder" | here_too | session 'the folder of ndushavire(7)' "$disk"
displays ndushavire.7 'Who does it' | here_too | session 'a script as ndushavire(7) runs it' "$disk"
[ -L "$folder/live" ] && [[ $(readlink "$folder/live") = tables/* ]] || fail 'ndushavire(7): live is no link into tables'
[ "$(stat -L -c %a "$folder/cards" "$folder/cards/vectors" "$folder/cards/lock" "$folder/live/table" | tr '\n' ' ')" = '700 600 600 640 ' ] ||
    fail "ndushavire(7): other modes: $(ls -lR "$folder")"
cmp "$folder/cards/vectors" "$service/cards/vectors" >&2 || fail 'ndushavire(7): other vectors than those of the trial'
if [ "$user" = nobody ]; then
    [ -z "$(find "$folder" ! -user nobody ! -name '*.sh' ! -name '*.txt')" ] || fail "ndushavire(7): files of others: $(find "$folder" ! -user nobody)"
    find "$folder" | sort >"$room/before"
    for words in 'switch.sh households.txt' 'vectors.sh unused' 'move.sh forward 7' 'month.sh 2026-11'; do
        status=0
        (cd "$folder" && sh -c "./$words" 2>"$room/errors" >&2) || status=$?
        [ "$status" = 1 ] && grep -q "another user's" "$room/errors" || fail "$words by root in nobody's folder: status $status, says $(cat "$room/errors")"
        find "$folder" | sort | diff "$room/before" - >&2 || fail "$words by root in nobody's folder leaves something"
    done
fi
# A live that is a folder, as it was in earlier versions.
mkdir -p "$disk/early/live"
cp "$service/live/"* "$disk/early/live/"
[ "$user" != nobody ] || chown -R nobody "$disk/early"
sed -n '/mkdir -p tables/,$p' "$room/folder" | here_too | session 'a folder as it was before' "$disk/early"
[ -L "$disk/early/live" ] && cmp "$service/live/table" "$disk/early/live/table" >&2 || fail 'ndushavire(7): live is no link to the old pair'
# The daemon's own line is README's.
displays ndushavire.7 DESCRIPTION >"$room/started"
[ "$(cat "$room/started")" = '$ daemon live cards' ] && [[ $start = *' live cards)' ]] || fail 'ndushavire(7) starts the daemon otherwise than README'
ran=$((ran + 1))

# ---- the scripts while a daemon runs: a switch is taken over, and the others refuse and alter nothing
give_scripts "$service"
(cd "$service" && sh -eu ./switch.sh households.txt >/dev/null) || fail "a switch under the daemon: status $?"
await "$room/log" 'a new table is taken over, 9 records' 'the daemon does not take the new table over'
asks
state() { (cd "$1" && find . -type f ! -name lock -exec cksum {} + | sort && readlink live); } # FOLDER
refuses() { # ABOUT
    state "$service" >"$room/before"
    for words in 'vectors.sh add vectors.txt' 'vectors.sh drop 7' 'vectors.sh unused' 'move.sh forward 7' 'month.sh 2026-11'; do
        status=0
        (cd "$service" && sh -c "./$words" >"$room/said" 2>&1) || status=$?
        [ "$status" = 1 ] && grep -q 'stop the daemon first' "$room/said" || fail "$words, $1: status $status, says '$(cat "$room/said")'"
        state "$service" | diff "$room/before" - >&2 || fail "$words, $1: something is altered"
        trials=$((trials + 1))
    done
}
refuses 'under the daemon'
end_daemon
exec 8>>"$service/cards/lock"
flock -w 60 8 || fail 'the daemon does not give its lock back'
refuses 'with the lock taken'
exec 8>&-

# ---- a gateway by the newer base standard, as ndushavire(7) states it: README's daemon with that option, and the gateway connects
stated=$(displays ndushavire.7 'Gateways by the newer base standard' | sed -n 's/^\$ daemon \(.*\) live cards$/\1/p')
[[ $stated = '-e 6733='* ]] || fail 'ndushavire(7) states no gateway'
older=$start other=$from
start=${start/% live cards)/ $stated live cards)} from=$(avp 264 40 - "$(text "${stated#*=}")")$(avp 296 40 - "$(text mainland.example)")
serve
asks
await "$room/log" "peer ${stated#*=}: open, RFC 6733" 'ndushavire(7): the daemon says nothing of the gateway'
from=$other
asks
await "$room/log" 'peer scscf1.isle: open, RFC 3588' 'ndushavire(7): the daemon says nothing of others'
end_daemon
start=$older
ran=$((ran + 1))

# ---- features, as ndushavire(7) states them: who asks for them is told so, and who asks for one more is told that too
stated=$(displays ndushavire.7 Features | sed -n 's/^\$ daemon \(.*\) live cards$/\1/p')
[[ $stated = '-f 0x'* && $shown = *', features 0x0' ]] || fail 'ndushavire(7) states no features'
older=$shown
start=${start/% live cards)/ $stated live cards)} shown=${shown/%0x0/${stated#-f }}
serve
asks
for bits in "${stated#-f }" $((${stated#-f } + 1)); do
    message 302 $cx "$front$(public sip:bob@isle)$(supported C0 "$bits")" >"$room/asking.hex"
    question=$room/asking.hex asks $stated
done
await "$room/log" "X5011: it asks for features 0x$(printf %x "$bits") of list 1 of vendor 10415, and ${stated#-f } of list 1 are supported" 'ndushavire(7): features'
end_daemon
start=${start/ $stated/} shown=$older
ran=$((ran + 1))

# ---- tables and vectors, as the pages of the programs have it. Each begins with the sample, to which DAMAGE may be done.
damage=''
sample() { # FOLDER
    rm -rf "$1"
    mkdir -p "$1/tables/first" "$1/cards"
    ln -s tables/first "$1/live"
    cp "$top/examples/"{households,vectors}.txt "$1/"
    ndushavire-maketable table "$1/households.txt" >"$1/live/table"
    ndushavire-maketable profile "$1/households.txt" >"$1/live/profile"
    ndushavire-maketable vectors "$1/vectors.txt" >"$1/cards/vectors"
    chmod 640 "$1/cards/vectors"
    give_scripts "$1"
    eval "$damage"
}
for page in ndushavire-maketable.1 ndushavire-check.1 ndushavire-showtable.1; do
    sample "$here"
    displays "$page" EXAMPLES | session "${page%.1}(1)" "$here"
done
grep -q alicia "$here/live/table" || fail 'ndushavire-showtable(1): the household is not altered'
sample "$here"
{ displays answer.1 EXAMPLES; } | session 'answer(1)' "$here/live"
sample "$here"
indented docs/TABLE.md '### The text of vectors' | session 'TABLE.md, unused vectors' "$here"
sample "$here"
rm "$here/cards/vectors"
indented docs/TABLE.md '## As text' | session 'TABLE.md, text and back' "$here"
grep -q alicia "$here/live/table" || fail 'TABLE.md: the household is not altered'
[ "$(stat -c '%s %a' "$here/cards/vectors")" = "$((512 * 8)) 600" ] || fail 'TABLE.md: the used vector is not taken out, or others may read the first vectors'

# ---- ndushavire-take(1): the sample of issue 7 is live, and the mainland has sent it with issue 8, and with 9
of_issue() { sed "s/^host=.*/& issue=$1/" "$top/examples/households.txt" >"$room/text" && ndushavire-maketable table "$room/text"; } # ISSUE
isle() { # with the first CUT blocks of issue 8 over the live table
    sample "$here"
    mkdir "$here/sent"
    of_issue 7 >"$here/live/table"
    for issue in 8 9; do of_issue "$issue" >"$here/sent/$issue"; done
    chmod a-w "$here/sent/"*
    dd if="$here/sent/8" of="$here/live/table" bs=512 count="$1" conv=notrunc status=none
}
took() { cmp "$here/live/table" "$here/sent/$1" >&2 || fail "ndushavire-take(1): the live table is not of issue $1"; } # ISSUE
taking() { displays ndushavire-take.1 "$1" | session "ndushavire-take(1), $1" "$here"; } # HEADING
isle 0
taking 'With the daemon stopped'
took 8
isle 0
taking 'While the daemon serves'
cmp "$here/live/table.next" "$here/sent/8" >&2 && [ ! -e "$here/live/table.part" ] || fail 'ndushavire-take(1): no table stands beside the live one'
# The daemon, which then takes it over, says what the page says; cut, it does not start, and says which block is bad.
next=$(displays ndushavire-take.1 'While the daemon serves' | grep '^daemon: ')
run_daemon() { # STATUS: ends by itself, or by SIGTERM once it has taken the table over. Its status is told by a file.
    rm -f "$room/said" "$room/pid" "$room/status" # what another daemon said would end this one before it begins
    (
        status=0
        (cd "$here" && echo "$BASHPID" >"$room/pid" && exec ${RUN-} "$tree/service/daemon" -p 0 live cards 2>"$room/said") || status=$?
        echo "ended with status $status" >"$room/status"
    ) &
    for ((tries = 0; tries < 3000; tries++)); do
        [ ! -s "$room/status" ] && ! grep -q 'is taken over' "$room/said" 2>/dev/null || break
        sleep 0.02
    done
    [ -s "$room/status" ] || kill -TERM "$(cat "$room/pid")" 2>/dev/null || true
    await "$room/status" '^ended' 'ndushavire-take(1): the daemon does not end'
    [ "$(cat "$room/status")" = "ended with status $1" ] || fail "ndushavire-take(1): the daemon $(cat "$room/status"): $(cat "$room/said")"
}
run_daemon 0
[ "$(grep -F table.next "$room/said")" = "$next" ] || fail "ndushavire-take(1): the daemon says '$(cat "$room/said")'"
took 8
isle 4
run_daemon 1
grep -q 'block 4 is bad' "$room/said" && grep -q 'greater than 8.*zero table, from block 0 up' "$room/said" || fail "the daemon says '$(cat "$room/said")' of a cut table"
taking 'After a cut'
took 8
isle 0
taking 'A longer area'
cmp "$here/alone" <(of_issue 7) >&2 && [ -s "$here/text" ] || fail 'ndushavire-take(1): the table is not cut out of the area'
# ---- ndushavire-list(1): the sample of issue 7 goes to the desk, in a longer area, and comes back
isle 0
truncate -s +700 "$here/live/table"
displays ndushavire-list.1 EXAMPLES | session 'ndushavire-list(1)' "$here"
cmp "$here/desk/again" <(of_issue 7) >&2 && [ ! -e "$here/desk/lost" ] || fail "ndushavire-list(1): the desk has $(ls "$here/desk")"
# In a longer area the scripts work as they do in one that is exact.
ndushavire-maketable table "$here/households.txt" >"$here/live/table"
truncate -s +700 "$here/live/table"
for words in 'vectors.sh unused' 'move.sh forward 7' 'month.sh 2026-11'; do
    (cd "$here" && sh -c "./$words" >"$room/said" 2>&1) || fail "$words in a longer area: $(cat "$room/said")"
done

# ---- ndushavire-report(1): a month
sample "$here"
mkdir -p "$here/month.new/left"
displays ndushavire-report.1 EXAMPLES | grep '^\$ \./month\.sh ' | session 'a month begins' "$here"
[ "$(cd "$here" && find month-* month.new -type f -printf '%P %m\n' 2>/dev/null | sort | tr '\n' ' ')" = 'profile 600 requests 600 table 600 vectors 600 ' ] ||
    fail "month.sh leaves $(find "$here"/month-*)"
for file in live/table live/profile cards/vectors; do cmp "$here/$file" "$here/month-2026-11/${file#*/}" >&2 || fail "month.sh copies another $file"; done
for name in icscf-20-lir scscf-12-sar mar-33; do sed '/^#/d' "$tests/captured/$name.hex" | bytes; done >>"$here/month-2026-11/requests"
displays ndushavire-report.1 EXAMPLES | sed -n '/^\$ cd /,/^$/p' | session "the month's end" "$here"
grep -q '^read  *3$' "$here/month-2026-11/numbers" || fail "the month's numbers are others: $(cat "$here/month-2026-11/numbers")"
# What a gateway sends, by either base standard: alike, until it sends a second Vendor-Id.
displays ndushavire-report.1 EXAMPLES | grep '^\$ ndushavire-report -e ' | session 'a month by both base standards' "$here/month-2026-11"
cmp "$room/session/1.said" "$room/session/2.said" >&2 || fail 'ndushavire-report(1): by both base standards the numbers are others'
message 302 $cx "${front/$application/$(avp 260 40 - "$(avp 266 40 - 000028AF)$both")}$(public sip:bob@isle)" | bytes >>"$here/month-2026-11/requests"
(cd "$here/month-2026-11" && sh -eu "$room/session/all") || fail 'ndushavire-report(1): a second Vendor-Id stops it'
! cmp -s "$room/session/1.said" "$room/session/2.said" || fail 'ndushavire-report(1): a second Vendor-Id does not show'
# What would be turned away by other features: nothing, until somebody asks for some.
displays ndushavire-report.1 EXAMPLES | grep '^\$ ndushavire-report -f ' | session 'a month by other features' "$here/month-2026-11"
[ ! -s "$room/session/1.said" ] && [ ! -s "$room/session/2.said" ] || fail 'ndushavire-report(1): nobody asks for features, and there is an X5011'
message 302 $cx "$front$(public sip:bob@isle)$(supported C0 3)" | bytes >>"$here/month-2026-11/requests"
(cd "$here/month-2026-11" && sh -eu "$room/session/all") || fail 'ndushavire-report(1): a Supported-Features stops it'
grep -q '^X5011 .* 1  feature unsupported$' "$room/session/1.said" && [ ! -s "$room/session/2.said" ] || fail 'ndushavire-report(1): X5011 does not show'
state "$here" >"$room/before"
! (cd "$here" && sh ./month.sh 2026-11 2>/dev/null) || fail 'a month is begun twice'
rm -rf "$here/month.new"
state "$here" | diff "$room/before" - >&2 || fail 'a month that is begun twice loses what it had'

# ---- each command of each script fails in turn
make_memory memory
here=$memory/here
mkdir "$disk/counted"
for name in ndushavire-maketable ndushavire-showtable ndushavire-check ndushavire-move awk cat cp date flock head ln mkdir mv od rm sync tail; do
    printf '#!/bin/sh\nread -r turn <"%s/turn"\necho $((turn - 1)) >"%s/turn"\n[ "$turn" != 1 ] || exit 7\nexec "%s" "$@"\n' \
        "$room" "$room" "$(command -v "$name")" >"$disk/counted/$name"
done
chmod +x "$disk/counted/"*
served() { (cd "$here" && cksum <live/table && cksum <live/profile && cksum <cards/vectors && ls -d month-* 2>/dev/null) || true; }
# Runs a script, whose TURN-th command fails (0: none), and gives its status in $status. Whatever happens, what is served is sound, and secret.
runs() { # TURN WORD..
    status=0
    echo "$1" >"$room/turn"
    (cd "$here" && PATH=$disk/counted:$PATH sh "./$2" "${@:3}" >"$room/said" 2>"$room/errors") || status=$?
    ndushavire-check "$here/live/table" "$here/live/profile" "$(if [ -z "$damage" ]; then echo "$here/cards/vectors"; else echo /dev/null; fi)" >/dev/null ||
        fail "${*:2}, turn $1: what is served is not sound"
    [ "$(stat -c %a "$here/cards/vectors")" = 640 ] || fail "${*:2}, turn $1: the vectors have another mode"
    open=$(cd "$here" && find cards month-* month.new -type f ! -path cards/vectors ! -path cards/next ! -path cards/lock -perm /077 2>/dev/null) || true
    [ -z "$open" ] || fail "${*:2}, turn $1: others may read $open"
    trials=$((trials + 1))
}
done_by() { # WORD..: status 0, and nothing is left over
    runs 0 "$@"
    [ "$status" = 0 ] || fail "$*: status $status: $(cat "$room/errors")"
    over=$(cd "$here" && ls -d new live.new month.new cards/next cards/text cards/part 2>/dev/null) || true
    [ -z "$over" ] || fail "$*: leaves $over"
}
refused() { # PHRASE WORD..: status 1, and nothing is altered
    local before
    before=$(served)
    runs 0 "${@:2}"
    [ "$status" = 1 ] && grep -q -e "$1" "$room/said" "$room/errors" || fail "${*:2}: status $status: $(cat "$room/said" "$room/errors")"
    [ "$(served)" = "$before" ] || fail "${*:2}: refused, and something is altered"
}
# From the sample, a script goes from one state to another, or stays; only the last LATE commands fail when all is done.
each_fails() { # LATE WORD..
    local turn left before after late=0
    sample "$here"
    before=$(served)
    done_by "${@:2}"
    read -r left <"$room/turn"
    after=$(served)
    for ((turn = 1; turn <= -left; turn++)); do
        sample "$here"
        runs "$turn" "${@:2}"
        [ "$status" != 0 ] || fail "${*:2}: command $turn fails, and the status is 0"
        if [ "$(served)" = "$before" ]; then
            done_by "${@:2}"
        else
            late=$((late + 1))
        fi
        [ "$(served)" = "$after" ] || fail "${*:2}: command $turn fails, and neither the old files are there nor the new ones"
    done
    [ "$late" = "$1" ] || fail "${*:2}: $late commands fail when all is done, instead of $1"
}
printf 'host=h realm=r keep=2\n' >"$room/wrong"
sed 's/alice/alicia/g' "$top/examples/households.txt" >"$room/second"
each_fails 1 switch.sh "$room/second"
cmp "$here/live/table" <(ndushavire-maketable table "$room/second") >&2 || fail 'switch.sh: another table is live'
refused 'keep' switch.sh "$room/wrong"
printf '#!/bin/sh\necho spoilt && "%s" "$@"\n' "$(command -v ndushavire-maketable)" >"$room/spoil"
chmod +x "$room/spoil"
cp "$disk/counted/ndushavire-maketable" "$room/kept"
cp "$room/spoil" "$disk/counted/ndushavire-maketable"
refused 'is bad' switch.sh "$room/second"
cp "$room/kept" "$disk/counted/ndushavire-maketable"

each_fails 1 move.sh forward 7
cmp "$here/cards/vectors" <(ndushavire-maketable vectors "$here/vectors.txt") >&2 || fail 'move.sh alters the vectors'
[ "$(get_byte "$here/live/table" 1)" = 2 ] && cmp "$here/live/profile" "$here/tables/first/profile" >&2 || fail 'move.sh: no table of edition 2 is live'
refused 'of edition 2' move.sh forward 7
done_by move.sh back
cmp "$here/live/table" "$here/tables/first/table" >&2 || fail 'move.sh: there and back is another table'
each_fails 1 month.sh 2026-11

for number in 1 2 3; do
    printf 'private=guests@isle rand=%032x autn=%032x xres=01020304 confidentiality=%032x integrity=%032x\n\n' "$number" 1 2 3
done >"$room/text"
old=$room/old
ndushavire-maketable vectors "$top/examples/vectors.txt" >"$old"
are() { cmp "$here/cards/vectors" - >&2 || fail "$1"; } # ABOUT, on standard input the vectors that should be there
each_fails 2 vectors.sh add "$room/text"
ndushavire-maketable vectors "$room/text" | cat "$old" - | are 'vectors.sh: other vectors are put in'
grep -q -x -F '4 unused, 0 used, private=guests@isle' "$room/said" || fail 'vectors.sh does not say what is unused'
refused 'again' vectors.sh add "$room/text"
runs 0 vectors.sh ad "$room/text"
[ "$status" = 2 ] && grep -q usage "$room/errors" || fail "vectors.sh ad: status $status"
each_fails 2 vectors.sh unused
{ head -c 1024 "$old" && tail -c +1537 "$old"; } | are 'vectors.sh: others than the used vector are taken out'
printf 'private=guests@isle\n' >"$room/wrong"
refused 'wrong:1' vectors.sh add "$room/wrong"
sample "$here"
# Bob's first vector, which is used; in the text it is not.
sed -n '/^private=bob/,/^xres/p' "$top/examples/vectors.txt" | head -n 3 >"$room/again"
refused 'again' vectors.sh add "$room/again"

flip_block() { flip "$here/cards/vectors" $((512 * $1 + 180)) 1; } # BLOCK
damage='flip_block 7'
each_fails 2 vectors.sh drop 7
{ head -c $((512 * 7)) "$old" && tail -c 512 "$old"; } | are 'vectors.sh: another block is taken out'
sample "$here"
refused 'vector block 6 is bad' vectors.sh drop 6
damage='flip_block 2; flip_block 7'
sample "$here"
refused 'vector block 6 is bad' vectors.sh drop 2
done_by vectors.sh drop 2 6
{ head -c 1024 "$old" && head -c $((512 * 7)) "$old" | tail -c +1537 && tail -c 512 "$old"; } | are 'vectors.sh: other blocks are taken out'
damage='truncate -s $((512 * 8 - 3)) "$here/cards/vectors"'
sample "$here"
done_by vectors.sh drop 7
head -c $((512 * 7)) "$old" | are 'vectors.sh: more than the piece at the end is taken out'

# ---- whatever a page prints as a command was run
printed=$({ sed -n 's/^    \(\$ .*\)/\1/p' "$top/README.md" "$top"/docs/*.md && for page in "$top"/man/*; do displays "${page##*/}"; done; } | grep -c '^[$#] ')
[ "$ran" = "$printed" ] || fail "the pages print $printed commands, and $ran were run"
echo "recipes.sh: $ran commands, all that the pages print, and their 4 scripts, in $trials trials in which each command of them failed"
