#!/bin/sh
# Replays one part of a trace: the one whose number the task has, of as many as the job array has.
#   sbatch --array=1-8 cluster/part.sbatch TRACE FOLDER [OPTIONS OF REPLAY ..]
#   ERASER_PARTS=8 sbatch --array=3,5 cluster/part.sbatch ..    replays parts 3 and 5 of 8 once more
# FOLDER gets NUMBER.report. Both must be in a file system that all nodes share.
#SBATCH --job-name=eraser-part
#SBATCH --requeue
trace=$1 folder=$2
shift 2
mkdir -p "$folder" || exit 4
part=$SLURM_ARRAY_TASK_ID
report=$folder/$part.report
# Each run of the task writes a file of its own, since one on a node that was given up may still write.
new=$report.${SLURM_RESTART_COUNT:-0}
# If this part fails, it leaves no report of an earlier trace.
rm -f "$report" "$report".* || exit 4
"${ERASER:-eraser}" replay --part "$part/${ERASER_PARTS:-$SLURM_ARRAY_TASK_COUNT}" "$@" "$trace" >"$new"
status=$?
# 1 says that the part has races. A report gets its name once it is whole, so a task that is run again leaves no other one behind.
[ "$status" -le 1 ] || exit "$status"
mv "$new" "$report"
