#!/usr/bin/env bash
# Prints one line a case: seconds, answers and peak memory of the program on large families, and those of the plain program.
#
#     times.sh PROGRAM YARDSTICK [VERTICES ..]
#
# FAMILIES="pump climb" picks some of them. Seconds of a script are those of the whole run, reading included.
set -eu
program=$(realpath "$1")
yardstick=$(realpath "$2")
shift 2
here=$(cd "$(dirname "$0")" && pwd)
room=$(mktemp -d)
trap 'rm -rf "$room"' EXIT

# seconds and megabytes of one run of a script on a family; its output is kept
timed() {
    /usr/bin/env time -f '%e %M' -o "$room/time" "$program" run "$1/game" "$1/diagram" "$2" > "$room/answers" || true
    awk '{printf "%s s %d MB", $1, $2 / 1024}' "$room/time"
}

# a script of the lines before, and then so many times the lines behind
script() {
    printf '%s\n' "$1"
    for _ in $(seq "$2"); do printf '%s\n' "$3"; done
}

# what the lines of the last run answered, in short
answered() { grep -E '^(un)?settled' "$room/answers" | tr '\n' ' '; }

families=${FAMILIES:-steps ladder random random2 random7 random12 random20 wide near loops selfloops climb clique pump elevator}
for n in "${@:-65536}"; do
    for family in $families; do
        python3 "$here/families.py" "$family" "$n" "$room/$family"
        script "" 0 "" > "$room/script"
        echo "$family $n: reading $(timed "$room/$family" "$room/script")"
        script "settle" 0 "" > "$room/script"
        echo "$family $n: and settle $(timed "$room/$family" "$room/script"): $(answered)"
        script $'settle\nexclude f\nsettle' 0 "" > "$room/script"
        echo "$family $n: and exclude f, settle $(timed "$room/$family" "$room/script"): $(answered)"
        echo "$family $n: plain program: $("$yardstick" "$room/$family/game" 1000000 open 5)"
    done
    case " $families " in *" steps "*) ;; *) continue ;; esac
    setup=$'settle\nexclude f\nsettle'
    script "$setup" 100 $'undo\nredo' > "$room/script"
    echo "steps $n: and 100 times undo and redo $(timed "$room/steps" "$room/script")"
    script "$setup" 100 $'retract f\nundo' > "$room/script"
    echo "steps $n: and 100 times retract f and undo $(timed "$room/steps" "$room/script")"
done
