#!/usr/bin/env bash
#SBATCH --job-name=witval
#SBATCH --ntasks=1
#SBATCH --cpus-per-task=1
#SBATCH --mem=8G
#SBATCH --output=/dev/null
# An array job over a list: task K of N judges each N-th line from line K on and writes OUT.K, a line of JSON for each
# of its lines, in their order. A task that runs again, by itself or by a call with its numbers (--array=3,7), goes on
# after the lines that its file has, once what still writes to it (of a task that was cancelled) has ended.
#
#     sbatch --array=1-200 contrib/cluster/by-slurm.sbatch 200 /path/of/contrib LIST OUT [witval-line's options]
set -euo pipefail
parts=$1 contrib=$2 list=$3 part=$SLURM_ARRAY_TASK_ID out=$4.$SLURM_ARRAY_TASK_ID
shift 4
[ "$part" -ge 1 ] && [ "$part" -le "$parts" ] || { echo "by-slurm: there is no part $part of $parts" >&2; exit 2; }
exec "$contrib/witval-line" "$@" --list "$list" --from "$part" --step "$parts" --resume "$out"
