#!/bin/bash
#SBATCH --job-name=hammockdove
#SBATCH --requeue
# One part of an array: parts.sbatch SCRIPTS K MODEL INSTANCE OUT [OPTION..]; submit calls it. A part that a machine's fault ended is put
# back into the queue up to MOST times; one whose input, command or budget is at fault fails for good. The part of a journal goes on from
# its own.
set -u
MOST=3
scripts=$1 index=$SLURM_ARRAY_TASK_ID out=$5
shift
echo "part $index begins on $(uname -n), restart ${SLURM_RESTART_COUNT:-0}"
"$scripts/part" "$index" "$@"
status=$?
echo "part $index ended with status $status"
case $status in
    0) exit 0 ;;
    2) ! grep -q '^stopped budget' "$out/$(printf 'part-%04d-of-%04d' "$index" "$1").failed" || exit 2 ;;
    6 | 7 | 8 | 10 | 12[89] | 1[3-9][0-9]) ;;
    *) exit "$status" ;;
esac
if [ "${SLURM_RESTART_COUNT:-0}" -lt $MOST ]; then
    # By the array and the task: the number of the last task's job is the array's own, and would put all parts back.
    scontrol requeue "${SLURM_ARRAY_JOB_ID}_$index"
    sleep 60
fi
exit "$status"
