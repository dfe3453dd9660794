#!/usr/bin/env bash
# long.sh ROOM: long.py with a make that only waits and says what the checks say: it covers what it says that it covers, with the seeds that it says, keeps its time,
# and ends with status 1 if a check fails, says nothing, or has no time for a round; what it cuts is ended.
. "$(dirname "$0")/script.sh"
make_room "$1" bin
cp -r "$tests" "$room/tests" # so that its notes are not those of a true run
mkdir "$room/target"
cat >"$room/bin/make" <<'END'
#!/bin/sh
for word; do case $word in [A-Z]*=*) export "$word" ;; esac; done
echo "$2 $SEED $COUNT_DEFINITIONS$COUNT_round" >>"$ROOM/asked"
case $2 in
"$SLOW") "$ROOM/tests/within.sh" "$ROOM/cut" sh -c 'seq 20000 | (cd "$TMPDIR" && xargs touch) && sleep 86400' ;;
"$FAILS") echo 'a difference'; exit 2 ;;
"$SILENT") exit 0 ;;
mutants) echo '12 of 12 faults noticed' ;;
stats) printf '    %s cases\n' 100 200 ;;
definitions-check) sleep 0.1; echo "the definitions and the independent program agree in $COUNT_DEFINITIONS cases of 9 kinds, in 1 take-overs and in 2 calls of Sh" ;;
cuts) echo "cuts: $COUNT_cuts take-overs killed, 0 done before" ;;
parsed) echo "documents.py: seed 1, $COUNT_parsed documents: all" ;;
plain) echo "$COUNT_engines calls agree" ;;
rows) echo "$COUNT_compared cases agree: all" ;;
soak) for _ in 1 2 3 4; do echo "$COUNT_round cases agree: all"; done ;;
esac
END
chmod +x "$room/bin/make"
# Ends with STATUS, within so many seconds and some more for a machine with much else to do.
long() { # STATUS SECONDS
    local status=0 began=$SECONDS
    rm -f "$room/asked"
    ROOM=$room PATH=$room/bin:$PATH "$room/tests/long.py" "$2" 500 >"$room/said" || status=$?
    [ "$status" = "$1" ] || fail "status $status instead of $1: $(cat "$room/said")"
    [ $((SECONDS - began)) -le $(($2 + 5)) ] || fail "it takes $((SECONDS - began)) s, and may take $2"
    cmp "$room/said" "$room/target/long.txt" >&2 || fail 'it notes something else than it says'
    [ "$(head -n 1 "$room/said")" = "make long SECONDS=$2 SEED=500" ] || fail "it begins with '$(head -n 1 "$room/said")'"
    [ -z "$(still_running)" ] || fail "something of it is still running: $(cat "$room/said")"
    tried=$((tried + 1))
}
says() { grep -q -x -E -e "$1" "$room/said" || fail "it does not say '$1': $(cat "$room/said")"; } # PATTERN
export SLOW='' FAILS='' SILENT=''
long 0 10
says 'long: mutants: 12 of 12 faults noticed; seed 500'
says 'long: stats: 300 cases .*; seed 500'
# As many calls and seeds as were asked for.
read -r rounds calls < <(awk '$1 == "definitions-check" { rounds++; calls += $3; if ($2 != 499 + rounds) exit 1 } END { print rounds, calls }' "$room/asked")
[ "$rounds" -gt 1 ] || fail 'there is time for more than one round'
says "long: definitions-check: $calls calls, $rounds take-overs and $((2 * rounds)) calls of Sh computed from the definitions; seeds 500 to $((499 + rounds))"
says "long: soak: $(awk '$1 == "soak" { cases += 4 * $3 } END { print cases }' "$room/asked") tables, .*"
says 'long: all right; make long SECONDS=10 SEED=500 runs these seeds again'
for wrong in FAILS SILENT SLOW; do
    export "$wrong=plain"
    long 1 10
    says 'long: plain: NOTHING'
    says 'long: not right, or without time for a round: plain; .*'
    says 'long: soak: .* calls of Sh; .*'
    [ ! -e "$room/cut" ] || fail 'what a round that was cut put aside is left'
    export "$wrong="
done
echo "long.sh: $tried runs of make long, each within its time, and each told as it was"
