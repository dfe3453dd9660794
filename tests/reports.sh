#!/usr/bin/env bash
# reports.sh ROOM MAKETABLE MONTH SEED COUNT: MONTH (month.c) over the sample. RUN, if set, is the emulator.
. "$(dirname "$0")/script.sh"
make_room "$1"
"$2" table "$top/examples/households.txt" >"$room/table"
"$2" profile "$top/examples/households.txt" >"$room/profile"
"$2" vectors "$top/examples/vectors.txt" >"$room/vectors"
"${run[@]}" "$3" "$room/table" "$room/profile" "$room/vectors" "${@:4}"
