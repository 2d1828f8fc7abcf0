#!/bin/sh
# An array of 100 tasks, of which each judges one of the folders night/part0 to night/part99 and leaves a file of lines in the folder
# judged. It needs the installed tools. A task succeeds where its file has a line with a verdict for each trace, accepted or not: status 1
# alone does not say so, since a shell and Python end with it too. Where a folder has two names, by a link, its traces are judged once. Task 0
# fails too where a trace below night lies in no task's folder: `sbatch --array=0-9` judges part0 to part9 alone. Without Slurm, last is 99.
#SBATCH --array=0-99
#SBATCH --cpus-per-task=4
last="${SLURM_ARRAY_TASK_MAX:-99}"
part="night/part$SLURM_ARRAY_TASK_ID" lines="judged/$SLURM_ARRAY_TASK_ID.jsonl"
mkdir -p judged && : > "$lines" || exit 2
domepeeler-judge-many --json --jobs 4 -- "$part" > "$lines"
status=$?
[ "$status" -le 1 ] || exit "$status"
traces=$(find -L "$part" -type d -exec realpath -z {} + | sort -zu |
    xargs -0 sh -c 'find -L "$@" -maxdepth 1 -iname "*.trace" ! -type d -printf .' sh | wc -c)
[ "$traces" -gt 0 ] && [ "$(grep -c '^{.*}$' "$lines")" -eq "$traces" ] || { echo "$lines has not a line for each trace" >&2; exit 2; }
[ "$SLURM_ARRAY_TASK_ID" -eq 0 ] || exit 0
for task in $(seq 0 "$last"); do set -- "$@" -path "night/part$task" -o; done
stray=$(find -L night \( "$@" -false \) -prune -o -iname "*.trace" ! -type d -printf %p -quit | LC_ALL=C tr -c '[:print:]' '?')
[ -z "$stray" ] || { echo "no task judges $stray: is there a part behind $last?" >&2; exit 2; }
