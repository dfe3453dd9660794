#!/usr/bin/env bash
# aims.sh ROOM AIMS: a missed aim of make bench is marked in its row, and counted at the end.
. "$(dirname "$0")/script.sh"
make_room "$1"
"$2"
says() { # EXPECTED: of the report on standard input
    cat >"$room/report"
    said=$("$top/bench/summary.sh" "$room/report")
    [ "$said" = "$1" ] || fail "the summary is '$said' and should be '$1'"
}
says 'bench: every aim is met' <<'END'
   4096  UAR                 1.00   <= 1.1           0.70  < 1.0
END
says 'bench: one aim is missed, in the row that says so' <<'END'
   4096  UAR                 1.20   <= 1.1 missed    0.70  < 1.0
END
says 'bench: 3 aims are missed, in the rows that say so' <<'END'
   4096  UAR                 1.20   <= 1.1 missed    1.70  < 1.0 missed
   4096  LIR                 1.20   <= 1.1           1.70  < 1.0 missed
END
echo 'aims.sh: missed aims are marked and counted'
