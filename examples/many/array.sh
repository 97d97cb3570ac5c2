#!/bin/sh
#SBATCH --job-name=pami
#SBATCH --cpus-per-task=1
#SBATCH --output=array_%a.log
# Solves the model in the line of models.list that has this task's number.
model=$(sed -n "${SLURM_ARRAY_TASK_ID}p" models.list)
exec sh answer.sh "$model" "$model.txt"
