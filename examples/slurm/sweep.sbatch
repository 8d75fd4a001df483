#!/bin/bash
# A sweep as an array of jobs: each task makes a slice of the runs into a table of its own. From the top folder of the repository:
#
#     ./cfpp --version
#     sbatch --array=1-4 examples/slurm/sweep.sbatch sweep.csv --layouts examples/layouts/*.toml --programs examples/sorted.bin --rule
#
# The first line builds the program once, before the tasks start. After the last task the tables are joined, in the order of the slices:
#
#     tools/sweep sweep.csv --join sweep.csv.{1..4}
#
# A task that was killed goes on where it stopped when it is submitted again. A run takes milliseconds: give each task thousands of them.
#SBATCH --job-name=sweep
#SBATCH --output=sweep-%A_%a.log
#SBATCH --cpus-per-task=1
set -eu
table=$1
shift
tools/sweep "$table.$SLURM_ARRAY_TASK_ID" --slice "$SLURM_ARRAY_TASK_ID/$SLURM_ARRAY_TASK_COUNT" --jobs "${SLURM_CPUS_PER_TASK:-1}" "$@"
