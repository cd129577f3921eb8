#!/bin/sh
# Searches a guest by GNU parallel, with as many processes as there are processors:
#
#   sh search_by_parallel.sh GUEST BOUND [HOST,HOST ..]
#
# A host is a name that ssh knows, and has `ctxbound` and `rsync` on its PATH; `:` is this machine, and stands there
# where none is named. What was found is kept in GUEST.BOUND.PARTS/, beside the guest or in the folder that FOLDER says: after
# an interruption the same command goes on. PARTS says how many parts there are at least.
set -eu
export GUEST="$1" BOUND="$2"
parts=${PARTS:-1000}
kept=${FOLDER:-$(dirname -- "$GUEST")}/$(basename -- "$GUEST").$BOUND.$parts
parallel --version 2> /dev/null | grep -q "^GNU parallel" || { echo "$0: GNU parallel isn't on the PATH" >&2; exit 127; }
mkdir -p "$kept"
ctxbound prefixes "$GUEST" --at-least "$parts" > "$kept/prefixes"
# Status 1 tells of a bad schedule, and that its part is done.
parallel --sshlogin "${3:-:}" --basefile "$GUEST" --env GUEST --env BOUND --joblog "$kept/log" --resume-failed \
    'ctxbound explore "$GUEST" --bound "$BOUND" --under {} || test $? -eq 1' \
    < "$kept/prefixes" >> "$kept/all.part" || echo "Some parts failed: the same command takes them up again." >&2
ctxbound join "$GUEST" "$kept"/*.part --bound "$BOUND"
