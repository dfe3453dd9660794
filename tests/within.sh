#!/usr/bin/env bash
# within.sh ROOM COMMAND..: runs a command that has ROOM, empty, and keeps what it puts aside there too (TMPDIR). Behind it nothing of that is left, and nothing that it started.
. "$(dirname "$0")/script.sh"
make_room "$1"
export TMPDIR=$room
"${@:2}" & # so that a signal is not kept waiting
wait "$!"
