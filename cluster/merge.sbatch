#!/bin/sh
# Merges the reports of all parts, once their job array has ended. If a part has no report, the merge says which.
#   sbatch --dependency=afterany:JOB cluster/merge.sbatch FOLDER
# FOLDER gets the file `report`, and the file `status` with the exit status: 0 without races, 1 with some. Without a report it has neither.
#SBATCH --job-name=eraser-merge
#SBATCH --requeue
folder=${1:?the folder of the reports is missing}
rm -f "$folder/report" "$folder/status" || exit 4
"${ERASER:-eraser}" merge "$folder"/*.report >"$folder/report.new"
status=$?
[ "$status" -le 1 ] || exit "$status"
mv "$folder/report.new" "$folder/report" && echo "$status" >"$folder/status"
