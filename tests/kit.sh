#!/usr/bin/env bash
# kit.sh ROOM: .ci/run refuses a kit that is not the one pinned in KIT-ID, names both, and does nothing else; with the pinned one
# it goes on. The rt that it finds here only says a version, and every other command of it fails. What rt ci says is no verdict if an edit was bad or the
# last line is another. Then the table of what its parts took; and make test has every part that make help lists for it.
. "$(dirname "$0")/script.sh"
make_room "$1" bin
cat >"$room/bin/rt" <<END
#!/bin/sh
[ "\$*" = version ] && exec cat "$room/version"
echo "rt \$*" >>"$room/done"
exit 9
END
cat >"$room/bin/apt-get" <<END
#!/bin/sh
echo "apt-get \$*" >>"$room/done"
exit 9
END
chmod +x "$room/bin/"*
# It ends with a status, and has said this on standard error.
ends() { # STATUS [PHRASE]
    local status=0
    rm -f "$room/done"
    PATH=$room/bin:$PATH "$top/.ci/run" >"$room/said" 2>"$room/errors" || status=$?
    [ "$status" = "$1" ] || fail "status $status instead of $1 with the kit '$(cat "$room/version")'"
    [ -z "${2-}" ] || grep -q -F -e "$2" "$room/errors" || fail "not said: $2"
}
echo 'rattle-kit-0 logic 0' >"$room/version"
ends 1 "this tree is proved with the kit '$(cat "$top/KIT-ID")', which the file KIT-ID pins, and the rt on the path is of 'rattle-kit-0 logic 0'"
[ ! -e "$room/done" ] || fail "something was done with another kit: $(cat "$room/done")"
cp "$top/KIT-ID" "$room/version"
ends 9
[ -s "$room/done" ] || fail 'nothing was done with the pinned kit'
[ "$(wc -l <"$top/KIT-ID")" = 1 ] || fail 'KIT-ID is not one line'

# rt ci that warns of a bad edit, that says no more whether there are any, or whose last line is another: none of these is a verdict.
cat >"$room/bin/rt" <<END
#!/bin/sh
[ "\$*" = version ] && exec cat "$room/version"
[ "\$*" = ci ] && exec cat "$room/ci"
exit 9
END
printf '%s\n' '#!/bin/sh' "echo \"make \$*\" >>'$room/done'" 'exit 8' >"$room/bin/make"
chmod +x "$room/bin/make"
gate() { # OK LAST
    printf '%s\n' 'rt: octets proved' "$1" "$2" >"$room/ci"
}
gate 'rt: ok; handles allowed: none; must-fail edits: 2 refused, 1 bad; every proof and must-fail edit was done in this run' '4 passed, 0 failed'
ends 1 'must-fail edits that could not be tried: 1'
gate 'rt: octets ran' '4 passed, 0 failed'
ends 1 "rt ci does not say 'rt: ok'"
gate 'rt: ok; handles allowed: none; must-fail edits: 2 refused; every proof and must-fail edit was done in this run' '4 passed, 0 failed (octets alone)'
ends 1 'is no verdict'
[ ! -e "$room/done" ] || fail "something was done behind no verdict: $(cat "$room/done")"
gate 'rt: ok; handles allowed: none; must-fail edits: 2 refused, 1 of them only by a limit; every proof and must-fail edit was done in this run' '4 passed, 0 failed'
ends 8
[ "$(cat "$room/done")" = 'make test' ] || fail "behind a verdict this is done: $(cat "$room/done")"
! grep -q ' passed, 0 failed' "$room/said" || fail 'where the tests fail, the last line of rt ci is said all the same'

cat >"$room/log" <<'END'
3 fn octets::now: proved
35 rt: octets proved
36 rt: octets: trying its must-fail edits (2)
57 rt: blocks is kept: an earlier run on this machine proved the same files over the same libraries
60 rt: record proved
99 rt: must-fail record/first_fails.edit: refused, as it must be: src/lib.rt:3:4: error
99 rt: must-fail record/second_fails.edit: refused, as it must be
101 rt: answer ran, and wrote what its file stdout has
101 rt: ok; handles allowed: none; must-fail edits: 2 refused; every proof and must-fail edit was done in this run
101 5 passed, 0 failed
701 tests passed
END
cat >"$room/times" <<'END'
texts 40.2 20.1 1.1
kit 0.2 0.1 0.1
tables 80.0 20.0 2.0
tables 10.5 3.0 0.0
END
diff - <("$top/.ci/times.sh" "$room/log" "$room/times") >&2 <<'END' || fail 'the table of times is another one'
What each part took by the clock:
  proofs     1 min 00 s   3 crates, of which 1 were kept from an earlier run
  edits      0 min 39 s   behind the last proof; 2 edits in all
  programs   0 min 02 s
  tests     10 min 00 s   46 s of processor
  all       11 min 41 s
The tests, s by the clock and of processor, what takes a second and more:
    90.5   25.0  tables
    40.2   21.2  texts
END
helped=$(sed -n 's/^#: \([a-z]*\) .*/\1/p' "$top/Makefile" | sed -n '/^fmt$/,/^noticed$/p' | sort)
parts=$(sed -e ':more' -e '/\\$/{N; s/ *\\\n */ /; b more' -e '}' "$top/Makefile" | sed -n 's/^PARTS := //p' | tr ' ' '\n' | sort) # a line may go on
diff <(echo "$helped") <(echo "$parts") >&2 || fail 'make test has other parts than make help lists from fmt to noticed'
echo "kit.sh: .ci/run asks for $(cat "$top/KIT-ID"), and says what its parts took"
