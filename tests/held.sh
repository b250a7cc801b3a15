# How a test holds the archive to an independent reading of the rules: tests/NAME.py writes cases and what the rules answer to each,
# tests/NAME.c asks the archive. `held NAME` compares every line; `told NAME WRONG:CALL ..` then holds that each wrong version of a call
# (tests/wrong.c) is told from the right one by the cases in $work. Sets passed.
. tests/machine.sh
make -s lib
work=$(mktemp -d)
trap 'rm -rf "$work"' EXIT
passed=0
ask() { # ask NAME GIVEN FLAG ..: the archive's answers to the cases
    "$CC" -std=c11 -O2 -Wall -Wextra -Werror -pedantic -Itarget/tsivelaro/include tests/"$1".c "${@:3}" -L"$lib" -ltsivelaro -o "$work/$1"
    tools/run "$work/$1" <"$work/cases" >"$work/$2"
}
held() {
    python3 tests/"$1".py "$work"
    ask "$1" given
    passed=$(wc -l <"$work/answers")
    cmp -s "$work/answers" "$work/given" || {
        paste -d '\n' "$work/cases" "$work/answers" "$work/given" | cut -c1-300 | awk '
            NR % 3 == 1 { asked = $0 }
            NR % 3 == 2 { rules = $0 }
            NR % 3 == 0 && rules != $0 && n++ < 5 { print "case  " asked "\nrules " rules "\ngiven " $0 }'
        echo "$1: the archive gives other answers"
        exit 1
    }
}
told() {
    ask "$1" right
    local wrong
    for wrong in "${@:2}"; do
        ask "$1" wrong tests/wrong.c -D"${wrong%:*}" -Wl,--wrap=tsiv_"${wrong#*:}"
        ! cmp -s "$work/right" "$work/wrong" || { echo "$1: not found: ${wrong%:*}"; exit 1; }
        passed=$((passed + 1))
    done
}
