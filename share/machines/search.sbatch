#!/bin/bash
#SBATCH --job-name=ctxbound
#SBATCH --array=1-100
# Searches a guest as an array of Slurm's jobs, in a folder that all machines see:
#
#   sbatch search.sbatch GUEST BOUND
#
# Of 100 jobs each searches every hundredth prefix, and keeps a file for each in GUEST.BOUND.PARTS/, beside the guest or in the
# folder that FOLDER says. The same command again takes up what is missing. When all have ended:
#
#   cat GUEST.BOUND.PARTS/*.part | ctxbound join GUEST --bound BOUND
#
# PARTS says how many parts there are at least.
set -euo pipefail
guest=$1 bound=$2 parts=${PARTS:-1000}
kept=${FOLDER:-$(dirname -- "$guest")}/$(basename -- "$guest").$bound.$parts
mkdir -p "$kept"
ctxbound prefixes "$guest" --at-least "$parts" |
    sed -n "$((SLURM_ARRAY_TASK_ID - SLURM_ARRAY_TASK_MIN + 1))~${SLURM_ARRAY_TASK_COUNT}p" |
    while read -r prefix; do
        part=$kept/$prefix.part
        test ! -e "$part" || continue
        # Status 1 tells of a bad schedule, and that its part is done.
        ctxbound explore "$guest" --bound "$bound" --under "$prefix" > "$part.new" || test $? -eq 1
        mv "$part.new" "$part"
    done
