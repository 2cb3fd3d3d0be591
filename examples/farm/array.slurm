#!/bin/sh
#SBATCH --job-name=seqarrange
#SBATCH --cpus-per-task=1
#SBATCH --mem=4G
#SBATCH --time=01:00:00
#SBATCH --output=/dev/null
# One job of a list as one task of a Slurm array, called from the top of the repository, on a file system that all
# machines share:
#
#   sbatch --array=1-$(grep -c . jobs) examples/farm/array.slurm jobs results
name=$(awk -v line="$SLURM_ARRAY_TASK_ID" 'NF && ++seen == line { print $1 }' "$1")
exec examples/farm/job "$1" "$2" "$name"
