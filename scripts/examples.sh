#!/bin/bash
# Runs the programs of bin/ on the pairs of examples/. `mcf solve` must write the answer there, byte
# for byte, and `mcfcheck` must accept it; in the second form it must write the answer in NAME.two,
# if there is one, and `mcfcheck` must accept that equally. Then it tests a text of several pieces,
# from a file and from standard input, and command lines, files and a lack of memory that leave no
# answer, with their messages. `main` has no contract, so this is its test. Programs that aren't
# built yet are skipped.
set -u
cd "$(dirname "$0")/.." || exit 1

if [ ! -x bin/mcfcheck ] && [ ! -x bin/mcf ]; then
    echo "examples: bin/ has no program"
    exit 0
fi

written=$(mktemp) || exit 1
long=$written.long
trap 'rm -f "$written" "$written.err" "$written.two" "$long.min" "$long.ans" "$written.large"' EXIT
pairs=0
wrong=0

# What `mcfcheck` prints if it accepts an answer that begins with this line.
verdict_of() {
    case $1 in
        "s "*) echo "accepted flow ${1#s }" ;;
        "i "*) set -- $1; echo "accepted blocked $2" ;;
        "r "*) echo "accepted refusal ${1#r }" ;;
    esac
}

# The status of `mcf solve` if its answer begins with this line.
status_of() {
    case $1 in
        "s "* | "v "*) echo 0 ;;
        "i "*) echo 1 ;;
        "r "*) echo 2 ;;
    esac
}

report() {
    echo "examples: $1"
    wrong=$((wrong + 1))
}

# `mcfcheck` accepts the answer of a file for the instance of another, and prints nothing else.
accepts() {
    bin/mcfcheck "$1" "$2" > "$written" 2> "$written.err"
    status=$?
    [ "$status" -eq 0 ] && [ "$(cat "$written")" = "$(verdict_of "$(head -n 1 "$2")")" ] && [ ! -s "$written.err" ] ||
        report "mcfcheck $1 $2: status $status, $(cat "$written" "$written.err")"
}

# `mcf` with these words and a file as standard input writes the bytes of an answer, and no more.
answers() {
    expected=$1
    input=$2
    shift 2
    bin/mcf "$@" < "$input" > "$written" 2> "$written.err"
    status=$?
    [ "$status" -eq "$(status_of "$(head -n 1 "$expected")")" ] && cmp -s "$written" "$expected" && [ ! -s "$written.err" ] ||
        report "mcf $* with input $input: status $status, and not the bytes of $expected alone"
}

# `mcfcheck` accepts the answer of `mcf` in the second form just as the answer of a file.
accepts_second() {
    bin/mcf solve --form 2 "$1" > "$written.two" 2> "$written.err" < /dev/null
    status=$?
    line=$(head -n 1 "$2")
    [ "$status" -eq "$(status_of "$line")" ] && [ ! -s "$written.err" ] &&
        [ "$(bin/mcfcheck "$1" "$written.two")" = "$(verdict_of "$line")" ] ||
        report "mcf solve --form 2 $1: status $status, and not accepted as $2 is"
}

# A run without an answer: status 3, nothing on standard output, and this text on standard error.
tells() {
    text=$1
    shift
    "$@" > "$written" 2> "$written.err" < /dev/null
    status=$?
    [ "$status" -eq 3 ] && [ ! -s "$written" ] && [ "$(cat "$written.err")" = "$text" ] ||
        report "$*: status $status, and not '$text' on standard error alone"
}

# The same test with little memory, if the shell can limit it.
tells_with_little() {
    (ulimit -v 300000) 2> /dev/null || return 0
    text=$1
    shift
    tells "$text" sh -c 'ulimit -v 300000; exec "$@"' sh "$@"
}

for instance in examples/*.min examples/*.asn; do
    answer=${instance%.*}.ans
    pairs=$((pairs + 1))
    [ ! -x bin/mcfcheck ] || accepts "$instance" "$answer"
    [ ! -x bin/mcf ] || answers "$answer" /dev/null solve "$instance"
    [ ! -x bin/mcf ] || [ ! -f "${instance%.*}.two" ] || answers "${instance%.*}.two" /dev/null solve --form 2 "$instance"
    [ ! -x bin/mcf ] || [ ! -x bin/mcfcheck ] || accepts_second "$instance" "$answer"
done

# A text of 120,000 bytes, read in several pieces, and its answer; then a file larger than memory.
arcs=10000
{ echo "p min 2 $arcs"; yes 'a 1 2 0 0 0' | head -n $arcs; } > "$long.min" || exit 1
{ echo 's 0'; yes 'f 1 2 0' | head -n $arcs; echo 'y 1 0'; echo 'y 2 0'; } > "$long.ans" || exit 1
truncate -s 64G "$written.large" || exit 1
unreadable=$(printf '\377')
pair=examples/transport

if [ -x bin/mcfcheck ]; then
    accepts "$long.min" "$long.ans"
    sed '1s/14/15/' $pair.ans > "$written.two"
    [ "$(bin/mcfcheck $pair.min "$written.two")" = 'rejected cost' ] || report "mcfcheck: another cost isn't rejected"
    tells 'mcfcheck: cannot read the instance' bin/mcfcheck examples/none.min $pair.ans
    tells 'mcfcheck: cannot read the answer' bin/mcfcheck $pair.min examples/none.ans
    tells 'usage: mcfcheck INSTANCE ANSWER' bin/mcfcheck $pair.min
    tells 'usage: mcfcheck INSTANCE ANSWER' bin/mcfcheck $pair.min $pair.ans $pair.ans
    tells 'usage: mcfcheck INSTANCE ANSWER' bin/mcfcheck $pair.min $pair.ans "$unreadable"
    tells_with_little 'mcfcheck: out of memory' bin/mcfcheck "$written.large" $pair.ans
fi
if [ -x bin/mcf ]; then
    answers "$long.ans" /dev/null solve "$long.min"
    answers "$long.ans" "$long.min" solve
    answers $pair.ans /dev/null solve --engine cancel $pair.min
    answers $pair.ans /dev/null solve --engine=scaling $pair.min
    answers $pair.ans /dev/null solve --engine simplex --pricing best $pair.min
    answers $pair.ans /dev/null solve --pricing=block --block 1 $pair.min
    answers $pair.ans /dev/null solve --engine=sap $pair.min
    [ "$(bin/mcf --version | head -n 1)" = 'mcf 1.0.0' ] || report 'mcf --version: another version'
    tells 'mcf: cannot open the file' bin/mcf solve examples/none.min
    tells "error: unexpected argument '$pair.min' found

Usage: mcf solve [OPTIONS] [FILE]

For more information, try '--help'." bin/mcf solve $pair.min $pair.min
    tells "error: 'mcf' requires a subcommand but one was not provided
  [subcommands: solve, help]

Usage: mcf <COMMAND>

For more information, try '--help'." bin/mcf solve "$unreadable"
    tells_with_little 'mcf: out of memory' bin/mcf solve "$written.large"
fi
plans=examples/plans
# `mcfplan` answers the tables of an example with this status, and with this row.
plans_to() {
    bin/mcfplan flow "$plans/$1/places.csv" "$plans/$1/routes.csv" > "$written" 2> "$written.err"
    status=$?
    [ "$status" -eq "$2" ] && grep -q -x -F "$3" "$written" && [ ! -s "$written.err" ] ||
        report "mcfplan flow, $1: status $status, $(cat "$written" "$written.err")"
}

# `mcfplan` answers the table of persons and things of an example with this status, and these rows.
pairs_to() {
    example=$1
    status_wanted=$2
    shift 2
    bin/mcfplan pairs "$plans/$example/costs.csv" > "$written" 2> "$written.err"
    status=$?
    [ "$status" -eq "$status_wanted" ] && [ ! -s "$written.err" ] ||
        report "mcfplan pairs, $example: status $status, $(cat "$written" "$written.err")"
    for row in "$@"; do
        grep -q -x -F "$row" "$written" || report "mcfplan pairs, $example: no row $row: $(cat "$written")"
    done
}

if [ -x bin/mcfplan ]; then
    plans_to transport 0 '"cost","980"'
    cmp -s "$written" crates/mcfplan/stdout || report "mcfplan flow, transport: another plan"
    plans_to blocked 1 '"answer","no plan"'
    plans_to bad-tables 2 '"answer","faults"'
    [ "$(bin/mcfplan --version | head -n 1)" = 'mcfplan 1.0.0' ] || report 'mcfplan --version: another version'
    pairs_to roster 0 '"answer","plan"' '"cost","6"' '"pair","5","7","Maier, Hans","Früh Mi","1"'
    pairs_to roster-blocked 1 '"answer","no plan"' '"side","send"' '"person","2","Anna Berger","1"'
    pairs_to rota 0 '"answer","plan"' '"cost","13"'
    tells 'mcfplan: name a table, COSTS' bin/mcfplan pairs
    tells 'mcfplan: cannot read the table of costs' bin/mcfplan pairs none.csv
    tells_with_little 'mcfplan: out of memory' bin/mcfplan pairs "$written.large"
    tells 'mcfplan: name two tables, PLACES and ROUTES' bin/mcfplan flow $plans/transport/places.csv
    tells 'mcfplan: cannot read the table of places' bin/mcfplan flow none.csv $plans/transport/routes.csv
    tells 'mcfplan: cannot read the table of routes' bin/mcfplan flow $plans/transport/places.csv none.csv
    tells "mcfplan: the penalty isn't a number" bin/mcfplan flow --penalty x none.csv none.csv
    tells_with_little 'mcfplan: out of memory' bin/mcfplan flow "$written.large" none.csv
fi

[ "$wrong" -eq 0 ] || { echo "examples: $wrong wrong of $pairs pairs"; exit 1; }
[ ! -x bin/mcf ] || echo "examples: mcf writes the answers of all $pairs instances"
[ ! -x bin/mcfcheck ] || echo "examples: mcfcheck accepts the answers of all $pairs instances"
[ ! -x bin/mcfplan ] || echo "examples: mcfplan plans the tables of six examples"
