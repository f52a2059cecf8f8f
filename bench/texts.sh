# What measured/test.sh and netlist/test.sh share, which source it: a program held against the second one on numbered texts.

# hold SECOND PROGRAM FOLDER SUFFIX COUNT ENDINGS [AFTER]: the lines of both for FOLDER/0.SUFFIX, FOLDER/1.SUFFIX and so on, each with AFTER as a second argument if
# that is said, go to FOLDER/second and FOLDER/other. Stops at the first text of which they are not the same. A text's last line begins with one of the ENDINGS, with |
# between them. The calls have 8,000 arguments each, so that two that belong together stay together.
hold() {
    for one in second other; do
        [ $one = second ] && named=$1 || named=$2
        seq 0 $(($5 - 1)) | sed "s|.*|$3/&.$4 ${7-}|" | xargs -n 8000 -s 500000 -x $named >"$3/$one"
    done
    cmp -s "$3/second" "$3/other" || {
        first=$(awk -v last="^($6) " 'NR == FNR { second[FNR] = $0; next } $0 != second[FNR] { exit } $0 ~ last { text++ } END { print text + 0 }' "$3/second" "$3/other")
        echo "$2 writes other lines than the second program, first for $3/$first.$4"
        exit 1
    }
    [ "$(ending "$3" "($6) ")" = "$5" ] || {
        echo "$5 texts in $3 have $(ending "$3" "($6) ") endings"
        exit 1
    }
}

# ending FOLDER PATTERN: how many lines of the second program begin with it.
ending() { grep -cE "^$2" "$1/second" || true; }
