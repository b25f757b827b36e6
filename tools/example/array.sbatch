#!/bin/bash
#SBATCH --job-name=sheets
#SBATCH --array=0-99
#SBATCH --cpus-per-task=1
# A folder of sheets as a Slurm array: each task does every n-th sheet, n being the number of tasks.
#
#     sbatch tools/example/array.sbatch SURVEY PICTURES
#     tools/bin/sheet batch SURVEY PICTURES       # when the array has ended: does what is left, if anything, and writes PICTURES.rows/summary.tsv
sheet=${SHEET:-tools/bin/sheet}
n=0
for file in "$1"/*.tsv; do
    [ $((n++ % SLURM_ARRAY_TASK_COUNT)) -ne "$SLURM_ARRAY_TASK_ID" ] || "$sheet" one "$file" "$2"
done
exit 0
