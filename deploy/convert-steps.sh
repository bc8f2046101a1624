#!/bin/bash
#SBATCH --job-name=idxtool
#SBATCH --array=0-99%8
#SBATCH --cpus-per-task=4
#SBATCH --mem=2G
#SBATCH --time=01:00:00
# Writes one timestep of a dataset: a job array of Slurm writes one in each job (here 100 of them, at most eight at a time), and
# on one machine `xargs` starts several beside each other:
#
#     export DATASET=/data/run.idx RAW=/scratch/run%04d.raw BOX="0 255 0 255 0 255" FIELDS="n uint32" TIME="0 99 time%04d/"
#     sbatch --array=0-99%8 deploy/convert-steps.sh
#     seq 0 99 | xargs -P 8 -n 1 deploy/convert-steps.sh
#
# RAW has a mark for the number of the timestep. MASK, BITS, PERFILE and TEMPLATE may be set too. Each job is to be run again as
# it is where it failed: a timestep appears as a whole or not at all. A dataset is not begun in folders that another one beside it
# has: each timestep would be a revision of the other's.
set -eu
step=${SLURM_ARRAY_TASK_ID:-${1:?which timestep?}}

# Prints the folders of the timesteps of a header, without the digits of the mark; nothing where it has no time.
folders() {
    awk '{ gsub(/^[ \t\r]+|[ \t\r]+$/, "") }
        /^\(.*\)$/ { key = $0; next }
        $0 != "" { value[key] = value[key] " " $0 }
        END {
            if (split(value["(time)"], time, " ") != 3) exit
            count = split(substr(value["(filename_template)"], 2), part, "/")
            for (i = 1; i <= count && part[i] !~ /%/; i++) if (part[i] != "." && part[i] != "") printf "%s/", part[i]
            sub(/\/$/, "", time[3]); sub(/%0[1-9]d/, "%", time[3]); print time[3]
        }' "$@"
}

if [ ! -e "$DATASET" ]; then
    mine=$(printf '(filename_template)\n%s\n(time)\n%s\n' "${TEMPLATE:-./%06x.bin}" "$TIME" | folders)
    for other in "$(dirname "$DATASET")"/*.idx; do
        if [ -f "$other" ] && [ "$(basename "$other")" != "$(basename "$DATASET")" ] && [ "$(folders "$other")" = "$mine" ]; then
            echo "convert-steps: $other has the same folders for its timesteps; give TIME another name, as \"0 99 run_%04d/\"" >&2
            exit 2
        fi
    done
fi
# shellcheck disable=SC2059 # RAW is the form of a path
raw=$(printf "$RAW" "$step")
exec "${IDXTOOL:-idxtool}" convert "$DATASET" "$raw" "$BOX" "$FIELDS" "${MASK:-auto}" "${BITS:-16}" "${PERFILE:-256}" \
    "${TEMPLATE:-./%06x.bin}" "$TIME" "$step" --ranks "${SLURM_CPUS_PER_TASK:-1}"
