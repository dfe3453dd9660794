#!/usr/bin/env bash
# cuts.sh ROOM CUTS TAKE CUT_TAKE SEED SETS KILLS: runs cuts.c with its files in ROOM, or in memory if ROOM is empty, where a flush takes no time.
# RUN, if set, is the emulator.
. "$(dirname "$0")/script.sh"
if [ -n "$1" ]; then make_room "$1"; else make_memory room; fi
"${run[@]}" "$2" "$room" "${@:3}" & # so that a signal is not kept waiting for two minutes
wait "$!"
