#!/bin/bash
# timed.sh of:TARGET FLAGS.. COMMAND: the shell of the recipes of `make test`. What each takes, in seconds by the clock, of the program and of the
# system, is a line in the file that TIMES names, and so is what fails; .ci/times.sh reads it. A make that a recipe starts stands by itself.
name=${1#of:}
shift
[ -n "$name" ] || exec /bin/bash "$@" # a variable of the Makefile, and no recipe
times=$TIMES
unset TIMES
case $MAKEFLAGS in
*' -- '*) MAKEFLAGS=${MAKEFLAGS#* -- } ;;
*) unset MAKEFLAGS ;;
esac
TIMEFORMAT="$name %R %U %S"
{ time /bin/bash "$@" 2>&3; } 3>&2 2>>"$times"
status=$?
[ "$status" = 0 ] || echo "$name failed" >>"$times"
exit "$status"
