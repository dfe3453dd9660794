#!/bin/bash
# times.sh LOG TIMES: what each part of .ci/run took, as a table. LOG has what rt ci printed, and a last line from behind the tests, each line behind
# the seconds from the start on; TIMES is what tests/timed.sh noted of the parts of make test.
set -euo pipefail
log=$1 times=$2

# rt says when a crate is proved or found kept, and not what it took. Edits are tried beside other crates' proofs, and told when all are done.
count() { # PATTERN
    grep -c -E "^[0-9]+ rt: $1" "$log" || true
}
# When the last line came that has a pattern; if there is none, the other time.
last() { # PATTERN [OTHER]
    awk -v pattern="$1" -v at="${2:-0}" '$0 ~ pattern { at = $1 } END { print at }' "$log"
}
row() { # NAME SECONDS [WORDS]
    printf '  %-8s %3d min %02d s%s\n' "$1" $(($2 / 60)) $(($2 % 60)) "${3:+   $3}"
}
kept=$(count '[a-z_]+ is kept: ')
crates=$(($(count '[a-z_]+ proved$') + kept))
edits=$(count 'must-fail [^ ]+: refused')
proved=$(last ' rt: [a-z_]+ (proved$|is kept: )')
tried=$(last ' rt: must-fail ' "$proved")
gate=$(last '[0-9]+ passed, [0-9]+ failed$' "$tried")
end=$(last '')
echo 'What each part took by the clock:'
row proofs "$proved" "$crates crates, of which $kept were kept from an earlier run"
row edits $((tried - proved)) "behind the last proof; $edits edits in all"
row programs $((gate - tried))
row tests $((end - gate)) "$(awk 'NF == 4 { sum += $3 + $4 } END { printf "%d s of processor", sum }' "$times")"
row all "$end"
echo 'The tests, s by the clock and of processor, what takes a second and more:'
awk 'NF == 4 { clock[$1] += $2; processor[$1] += $3 + $4 }
     END { for (name in clock) if (clock[name] >= 1) printf "%8.1f %6.1f  %s\n", clock[name], processor[name], name }' "$times" | sort -rn
