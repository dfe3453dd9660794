#!/usr/bin/env bash
# summary.sh REPORT: how many aims the rows of a report miss, in one line.
set -euo pipefail
missed=$({ grep -o -w missed "$1" || true; } | wc -l)
case $missed in
0) echo 'bench: every aim is met' ;;
1) echo 'bench: one aim is missed, in the row that says so' ;;
*) echo "bench: $missed aims are missed, in the rows that say so" ;;
esac
