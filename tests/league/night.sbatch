#!/bin/sh
#SBATCH --array=1-4 --cpus-per-task=1 --output=part-%a.log
k=$SLURM_ARRAY_TASK_ID n=$SLURM_ARRAY_TASK_COUNT
exec > "part-$k.json"
exec audit --json --quiet --threads 1 --sheet league.sheet --params 10,3,25 --part "$k/$n" day/*.rounds
