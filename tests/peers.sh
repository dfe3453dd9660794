#!/usr/bin/env bash
# peers.sh ROOM MAKETABLE DAEMON..: the daemon of the examples with real software, in a network namespace of its own: Erlang's diameter as a strict
# client of Cx and as a voicemail box, which asks over Sh, Kamailio's I-CSCF and S-CSCF with two phones, Kamailio as an application server, which asks over
# Sh too, all again through freeDiameter as a relay, a call server that comes to the relay by TLS, and tshark, which judges what went over the wire.
# What is missing is installed from Debian, for which it must be root.
# What cannot run on a machine is said and counted; of a trial that fails, what ended by itself and what the logs say. Status 0 if everything
# ran and went as it should, 1 if something went wrong, 2 if something could not run.
. "$(dirname "$0")/script.sh"
packages=(freediameter kamailio kamailio-ims-modules kamailio-presence-modules erlang-diameter erlang-xmerl erlang-dev tshark iproute2 openssl python3)

# ---- outside: packages, and a namespace for the rest
if [ -z "${PEERS_INSIDE-}" ]; then
    missing=()
    for package in "${packages[@]}"; do
        [ "$(dpkg-query -W -f '${db:Status-Status}' "$package" 2>/dev/null)" = installed ] || missing+=("$package")
    done
    if [ ${#missing[@]} -gt 0 ]; then
        [ "$(id -u)" = 0 ] || fail "these packages are missing, and only root can install them: ${missing[*]}"
        policy=/usr/sbin/policy-rc.d # by which no service is started for having been installed
        [ -e "$policy" ] || { rooms+=("$policy") && printf '#!/bin/sh\nexit 101\n' >"$policy" && chmod +x "$policy"; }
        apt-get update -q
        for package in "${missing[@]}"; do # one by one: what there is not is said below, by whatever cannot run
            DEBIAN_FRONTEND=noninteractive apt-get install -y -q --no-install-recommends "$package" || echo "peers.sh: no package $package" >&2
        done
    fi
    unshare --net --mount true 2>/dev/null || fail 'no network namespace can be made here: it takes root, or a kernel that lets others'
    status=0
    PEERS_INSIDE=1 unshare --net --mount "$0" "$@" || status=$?
    exit "$status"
fi

# ---- inside: the isle's addresses and names, and nobody else's
make_room "$1" live cards database
maketable=$(realpath "$2")
shift 2
daemon=("$@")
[[ ${daemon[-1]} = /* ]] || daemon[-1]=$(realpath "${daemon[-1]}")
cp "$tests/peers/"* "$room/"
# The relay's files are those that docs/INTEROPERABILITY.md shows, one indented piece after the other.
sed -n '/^## A relay in front/,/^## Requests/p' "$top/docs/INTEROPERABILITY.md" >"$room/page"
cd "$room"
awk '/^    / { if (!within) piece++; within = 1; print substr($0, 5) > (piece == 1 ? "relay.conf" : piece == 2 ? "callers.conf" : "routes.conf"); next } { within = 0 }' page
grep -q '^ConnectPeer' relay.conf && grep -q '^ALLOW_IPSEC' callers.conf && grep -q 'FINALDEST' routes.conf || fail "docs/INTEROPERABILITY.md shows no relay"
ip link set lo up
for last in 2 3 4 5 10 11 12 13; do ip address add "192.0.2.$last/32" dev lo; done
printf '127.0.0.1 hss.isle localhost\n192.0.2.2 relay.isle\n192.0.2.3 icscf.isle\n192.0.2.4 scscf1.isle\n192.0.2.5 as.isle\n' >hosts
echo 'nameserver 127.0.0.1' >resolv.conf
mount --bind hosts /etc/hosts
mount --bind resolv.conf /etc/resolv.conf

ulimit -c 0 # a program that crashes is noticed at once, and not when its memory is written
passed=0 failed=0 could_not=0
declare -A started=() # by process: what runs, and its log
passes() { # WHAT
    passed=$((passed + 1))
    echo "peers.sh: PASSED: $1"
}
died() { # says which of the programs have ended by themselves, and how
    local pid status how
    for pid in "${!started[@]}"; do
        ! kill -0 "$pid" 2>/dev/null || continue
        status=0
        wait "$pid" || status=$?
        how="status $status"
        [ "$status" -le 128 ] || how="signal $((status - 128)), $(kill -l "$status")"
        echo "--- ${started[$pid]} has ended by itself: $how"
        unset "started[$pid]"
    done
}
# Kamailio's first process outlives the one that a signal ended, tells of it, and ends the others: that line stands far above the last ones.
crashes() { # LOG
    grep -n -i -E 'exited by a signal|core (was|dumped)|segmentation|assert|panic' "$1" | head -n 5 || true
}
fails() { # WHAT LOG..
    local log
    failed=$((failed + 1))
    echo "peers.sh: FAILED: $1"
    sleep 2 # for a crash to be told of
    died
    for log in "${@:2}"; do
        echo "--- $log"
        crashes "$log"
        tail -n 15 "$log"
    done
}
cannot() { # WHAT WHY
    could_not=$((could_not + 1))
    echo "peers.sh: COULD NOT RUN: $1: $2"
}
there() { # COMMAND..
    local command
    for command in "$@"; do command -v "$command" >/dev/null || return 1; done
}
says() { # FILE TEXT: waits until the file has it
    local try
    for try in $(seq 300); do
        ! grep -q -e "$2" "$1" 2>/dev/null || return 0
        sleep 0.1
    done
    echo "peers.sh: $1 does not say '$2'" >&2
    return 1
}
start() { # LOG COMMAND..
    "${@:2}" >>"$1" 2>&1 &
    last_pid=$!
    started[$last_pid]="${2##*/}, $1,"
}
finish() { # PID: by SIGTERM, and its status
    local status=0
    unset "started[$1]"
    kill "$1" 2>/dev/null || true
    wait "$1" || status=$?
    return "$status"
}

# ---- the daemon's files: alice and bob, carol, who is barred, dave, who has no vectors, erin and gina, who have a voicemail; and the guest house, whose
# lines only the voicemail box asks for: one for each state, one that is barred, one that renews, one whose server's name has markup and other characters
random() { od -An -tx1 -N"$1" /dev/urandom | tr -d ' \n'; }
profile='<IMSSubscription><PrivateID>%s@isle</PrivateID><ServiceProfile><PublicIdentity><BarringIndication>0</BarringIndication><Identity>sip:%s@isle</Identity>'
profile+='<Extension><IdentityType>0</IdentityType></Extension></PublicIdentity></ServiceProfile></IMSSubscription>'
{
    printf 'host=hss.isle realm=isle keep=1\nnetwork=isle\n\n'
    for of in alice bob carol:barred dave erin:unregistered-services gina:unregistered-services; do
        name=${of%:*} more=${of#"${of%:*}"}
        printf "public=sip:%s@isle private=%s@isle %s\nroaming=isle mandatory=1\nprofile=\"$profile\"\n\n" "$name" "$name" "${more#:}" "$name" "$name"
    done
    for of in 'desk state=registered' 'room1 pending' 'room2 state=unregistered' 'fax state=registered barred' 'shop state=registered pending'; do
        printf 'public=sip:%s@isle private=guests@isle server=sip:scscf2.isle:6060 %s\n\n' "${of%% *}" "${of#* }"
    done
    printf 'public=sip:odd@isle private=guests@isle state=registered server="%s"\n' 'sip:a&b<c>\"d'"'"'e&amp;]]>@isle;x=\xC3\xA9\xE2\x82\xAC'
} >lines.txt
for _ in $(seq 20); do
    for of in alice:8 bob:16 carol:4 gina:8; do
        printf 'private=%s@isle rand=%s autn=%s xres=%s confidentiality=%s integrity=%s\n\n' \
            "${of%:*}" "$(random 16)" "$(random 16)" "$(random "${of#*:}")" "$(random 16)" "$(random 16)"
    done
done >cards.txt
"$maketable" profile lines.txt >live/profile
daemon_pid=
daemon_up() { # ABOUT [OPTION]..: over fresh registrations; vectors are never put back
    "$maketable" table lines.txt >live/table
    [ -e cards/vectors ] || "$maketable" vectors cards.txt >cards/vectors
    start "daemon-$1.log" "${daemon[@]}" -a 127.0.0.1 -p 3868 "${@:2}" live cards
    daemon_pid=$last_pid
    says "daemon-$1.log" 'listening on'
}
daemon_down() { # ABOUT
    if finish "$daemon_pid" && grep -q 'daemon: ended' "daemon-$1.log"; then passes "$1: the daemon ends"; else fails "$1: the daemon does not end" "daemon-$1.log"; fi
}

# ---- the wire
if there tshark; then
    start capture.log tshark -i lo -f 'tcp port 3868' -w wire.pcapng
    capture_pid=$last_pid
    says capture.log 'Capturing on'
    sleep 1
else
    capture_pid=
fi

# ---- Erlang
compiled() { diameterc cx.dia && diameterc sh.dia && erlc cx.erl sh.erl client.erl "$1.erl"; } # MODULE
client() { # ABOUT WHAT MODULE ARGUMENT..
    local log=$3-$1.log
    if ! there erl erlc diameterc; then cannot "$1: $2" 'erl, erlc or diameterc is missing'; return; fi
    [ -e "$3.beam" ] || compiled "$3" >erlc.log 2>&1 || { fails "$1: $2: it does not compile" erlc.log; return; }
    if timeout 90 erl -noshell -s "$3" run "${@:4}" >"$log" 2>&1; then
        cat "$log"
        passes "$1: $2"
    else
        fails "$1: $2" "$log" "daemon-$1.log"
    fi
}
reads_xml() { erl -noshell -eval 'case code:which(xmerl_scan) of non_existing -> halt(1); _ -> halt(0) end.'; }
erlang() { # ABOUT ADDRESS EDITION: that of the base standard which the daemon states of who comes
    client "$1" "Erlang's diameter as a strict client" strict "$2" 3868
    if there erl && ! reads_xml; then cannot "$1: Erlang's diameter as a voicemail box" 'xmerl is missing'; return; fi
    client "$1" "Erlang's diameter as a voicemail box" voicemail "$2" 3868 "$3" live/table
}

# ---- Kamailio
database() {
    [ -d /usr/share/kamailio/dbtext/kamailio ] && cp /usr/share/kamailio/dbtext/kamailio/* database/
    printf '100:nds_trusted_domains:1\n101:s_cscf:1\n102:s_cscf_capabilities:1\n' >>database/version
    printf 'id(int,auto) trusted_domain(string)\n1:isle\n' >database/nds_trusted_domains
    printf 'id(int,auto) name(string) s_cscf_uri(string)\n1:scscf1:sip\\:scscf1.isle\\:6060\n' >database/s_cscf
    printf 'id(int,auto) id_s_cscf(int) capability(int)\n1:1:1\n' >database/s_cscf_capabilities
}
module_folder=$(dirname "$(find /usr/lib -path '*kamailio/modules/ims_icscf.so' 2>/dev/null | head -n 1)" 2>/dev/null || true)
has_kamailio() { # WHAT MODULE..
    local module
    there kamailio || { cannot "$1" 'kamailio is missing'; return 1; }
    for module in "${@:2}"; do
        [ -e "$module_folder/$module.so" ] || { cannot "$1" "its module $module is missing"; return 1; }
    done
}
kamailio_up() { # ABOUT NAME WHO: as which it asks NAME
    local relayed=
    [ "$2" != relay.isle ] || relayed='s/^#RELAY //' # it goes to no relay by itself
    mkdir -p "$3-$1"
    sed "s|ROOM|$room|; s|HSS|$2|; s|\"$3.xml\"|\"$room/$3-$1/peer.xml\"|; $relayed" "$3.cfg" >"$3-$1/kamailio.cfg"
    sed "s|HSS|$2|" "$3.xml" >"$3-$1/peer.xml"
    start "$3-$1.log" kamailio -DD -f "$room/$3-$1/kamailio.cfg" -Y "$room/$3-$1" -w "$room/$3-$1" -m 64 -M 8
}
phones() { # ABOUT NAME LOG: Kamailio asks NAME, whose log says when it is open
    local who pids=()
    has_kamailio "$1: phones over Kamailio" ims_icscf ims_auth ims_registrar_scscf presence db_text cdp || return 0
    [ -e database/s_cscf ] || database
    for who in icscf scscf; do
        kamailio_up "$1" "$2" "$who"
        pids+=("$last_pid")
    done
    if says "$3" 'icscf.isle.*[oO][pP][eE][nN]\|OPEN.*icscf.isle' && says "$3" 'scscf1.isle.*[oO][pP][eE][nN]\|OPEN.*scscf1.isle' &&
        timeout 120 ./phone.py cards/vectors live/table >"phones-$1.log" 2>&1; then
        cat "phones-$1.log"
        passes "$1: phones over Kamailio's I-CSCF and S-CSCF"
    else
        fails "$1: phones over Kamailio's I-CSCF and S-CSCF" "phones-$1.log" "icscf-$1.log" "scscf-$1.log" "daemon-$1.log"
    fi
    for who in "${pids[@]}"; do finish "$who" || true; done
}
server() { # ABOUT NAME LOG: the same over Sh
    local pid
    has_kamailio "$1: Kamailio as an application server" ims_diameter_server cdp_avp cdp debugger || return 0
    kamailio_up "$1" "$2" as
    pid=$last_pid
    if says "$3" 'as.isle.*[oO][pP][eE][nN]\|OPEN.*as.isle' && timeout 60 ./as.py live/table "as-$1.log" >"asked-$1.log" 2>&1; then
        cat "asked-$1.log"
        passes "$1: Kamailio as an application server"
    else
        fails "$1: Kamailio as an application server" "asked-$1.log" "as-$1.log" "daemon-$1.log"
    fi
    finish "$pid" || true
}

# ---- straight at the daemon, by RFC 6733; through the relay it is RFC 3588. Features are for whoever asks: Erlang's client does.
daemon_up direct -e 6733 -f 3
erlang direct 127.0.0.1 6733
daemon_down direct
daemon_up kamailio -e 6733 -f 3
phones kamailio hss.isle daemon-kamailio.log
server kamailio hss.isle daemon-kamailio.log
daemon_down kamailio

# ---- through a relay, which has TLS outside; its keys are for this run alone
keys() {
    openssl req -x509 -newkey rsa:2048 -nodes -days 2 -subj '/CN=the isle' -keyout ca.key -out ca.pem
    for name in relay.isle scscf.abroad; do
        openssl req -newkey rsa:2048 -nodes -subj "/CN=$name" -keyout "$name.key" -out "$name.request"
        openssl x509 -req -days 2 -in "$name.request" -CA ca.pem -CAkey ca.key -CAcreateserial -out "$name.pem"
    done
}
if there freeDiameterd openssl; then
    keys >keys.log 2>&1 || fails 'keys for the relay' keys.log
    daemon_up relay -f 3
    start relay.log freeDiameterd -c relay.conf
    relay_pid=$last_pid
    if says daemon-relay.log 'peer relay.isle: open' && says relay.log "STATE_OPEN.*hss.isle"; then passes 'relay: freeDiameter connects'; else fails 'relay: freeDiameter connects' relay.log; fi
    erlang relay 192.0.2.2 3588
    daemon_down relay
    daemon_up kamailio-relay -f 3
    if says daemon-kamailio-relay.log 'peer relay.isle: open'; then passes 'relay: it comes back to a daemon that was started again'; else fails 'relay: it does not come back' relay.log; fi
    phones kamailio-relay relay.isle relay.log
    server kamailio-relay relay.isle relay.log
    if ./tls.py >tls.log 2>&1; then
        cat tls.log
        passes 'relay: a call server by TLS, and who is turned away'
    else
        fails 'relay: a call server by TLS' tls.log relay.log
    fi
    finish "$relay_pid" || true
    daemon_down kamailio-relay
else
    for what in 'freeDiameter connects' "Erlang's diameter" 'a voicemail box' 'it comes back' "Kamailio's phones" 'an application server' 'TLS'; do
        cannot "relay: $what" 'freeDiameterd or openssl is missing'
    done
fi

# ---- the judge
if [ -n "$capture_pid" ]; then
    sleep 2
    unset "started[$capture_pid]"
    kill -INT "$capture_pid"
    wait "$capture_pid" || true
    if ./judge.py wire.pcapng; then passes 'tshark: every answer of the daemon'; else fails 'tshark: every answer of the daemon'; fi
    if ! ls voicemail-*.log >/dev/null 2>&1; then # without whom much of it is missing
        cannot "tshark's judgement of Sh" "Erlang's diameter did not ask"
    elif ./judge_sh.py wire.pcapng; then
        passes 'tshark: every request and answer of Sh'
    else
        fails 'tshark: every request and answer of Sh'
    fi
else
    cannot "tshark's judgement" 'tshark is missing'
    cannot "tshark's judgement of Sh" 'tshark is missing'
fi
echo "peers.sh: $passed trials passed, $failed failed, $could_not could not run"
[ "$failed" = 0 ] || exit 1
[ "$could_not" = 0 ] || exit 2
