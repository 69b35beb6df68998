#!/bin/bash
#SBATCH --job-name=hammockdove-join
# Joins the parts of an array: join.sbatch SCRIPTS K MODEL INSTANCE OUT; submit calls it. `infeasible` (status 1) is an answer too, and no
# failure of this job.
scripts=$1
shift
"$scripts/join" "$@"
status=$?
echo "join ended with status $status"
[ "$status" -le 1 ] || exit "$status"
