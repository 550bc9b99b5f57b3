#!/bin/sh
# Runs each command of `spechint` on what isn't a file for it, and over outputs that fail, and compares statuses and
# texts with what the README's table says: directories, files without rights, empty, cut off and too long ones, names
# that are no text, closed outputs, a reader that has gone, and a full disk. Use: tests/hostile_files.sh [SPECHINT]
here=$(cd "$(dirname "$0")/.." && pwd)
program=${1:-$here/spechint}
case $program in /*) ;; *) program=$PWD/$program ;; esac
"$program" plain "$here/crates/spechint/data/m1" > /dev/null
[ $? = 7 ] || exit 1
work=$(mktemp -d) || exit 1
trap 'rm -rf "$work"' EXIT
cd "$work" || exit 1

wrong=0
tried=0
skipped=""
# is WORDS CODE TEXT: compares the status in $got and standard error in the file err, which come of these words.
is() {
    tried=$((tried + 1))
    if [ "$got" != "$2" ] || [ "$(cat err)" != "$3" ]; then
        echo "hostile_files: $1: status $got and '$(cat err)', not $2 and '$3'"
        wrong=$((wrong + 1))
    fi
}
# wants CODE TEXT WORD..: the words end with the code, and put the text on standard error.
wants() {
    code=$1
    text=$2
    shift 2
    timeout 20 "$program" "$@" > out 2> err
    got=$?
    is "$*" "$code" "$text"
}

cp "$here/crates/spechint/data/m1" "$here/crates/spechint/data/w1" .
cp "$here/samples/reads.trace" told
mkdir folder
: > empty
head -c 63 m1 > short
head -c 119 m1 > front
head -c 131 m1 > less
head -c 67108864 /dev/zero > whole
cp whole long && printf x >> long
badname=$(printf 'bad\377name')
cp m1 "$badname"
"$program" rewrite m1 > file || wrong=$((wrong + 1))
head -c 16667 file > damaged

# Images, for each command that takes one.
for command in plain rewrite run trace; do
    wants 119 "spechint: cannot find folder" $command folder
    wants 119 "spechint: cannot find none" $command none
    wants 119 "spechint: cannot find none/m1" $command none/m1
    wants 122 "spechint: read fault" $command m1/more
    wants 121 "spechint: empty: refused: E2 Short" $command empty
    wants 121 "spechint: /dev/null: refused: E2 Short" $command /dev/null
    wants 121 "spechint: short: refused: E2 Short" $command short
    wants 121 "spechint: front: refused: E10 HeaderTable" $command front
    wants 121 "spechint: less: refused: E13 Segment" $command less
    wants 121 "spechint: told: refused: E3 Magic" $command told
    wants 121 "spechint: whole: refused: E3 Magic" $command whole
    wants 121 "spechint: long: refused: E1 TooLong" $command long
    wants 121 "spechint: damaged: refused: E12 Already" $command damaged
done
wants 7 "" plain m1
wants 7 "" run m1
wants 7 "" trace m1
wants 7 "" run file
wants 7 "" trace file
wants 121 "spechint: file: refused: E12 Already" rewrite file
wants 121 "spechint: file: refused: E12 Already" plain file

# Traces.
for command in replay plan; do
    wants 119 "spechint: cannot find folder" $command folder
    wants 119 "spechint: cannot find none" $command none
    wants 122 "spechint: read fault" $command m1/more
    wants 0 "" $command empty
    wants 118 "spechint: m1: bad line 1" $command m1
    wants 118 "spechint: whole: bad line 1" $command whole
    wants 121 "spechint: long: refused: E1 TooLong" $command long
done

# A name that is no text can't be a word.
usage="spechint: usage: spechint plain|rewrite|run|trace [OPTIONS] IMAGE [ARGS], or spechint demo N"
for command in plain rewrite run trace replay plan; do
    wants 120 "$usage" $command "$badname"
done

# A file without rights: for root, as a user without any.
cp m1 locked && chmod 000 locked
chmod 755 .
as=""
[ "$(id -u)" = 0 ] && as="setpriv --reuid 65534 --regid 65534 --clear-groups"
$as "$program" plain m1 > /dev/null 2>&1
if [ $? = 7 ]; then
    for command in plain rewrite run trace replay plan; do
        $as "$program" $command locked > out 2> err
        got=$?
        is "$command locked" 122 "spechint: read fault"
    done
else
    skipped=", skipped: files without rights"
fi

# Outputs that fail: a closed one, one whose reader has gone, and a device that is always full.
outputs() {
    "$program" "$@" >&- 2> err
    got=$?
    is "$* >&-" 123 ""
    # shellcheck disable=SC2094
    (sleep 0.2; "$program" "$@" 2> err; echo $? > code) | true
    while [ ! -s code ]; do sleep 0.1; done
    got=$(cat code)
    rm code
    is "$* | true" 123 ""
    if [ -c /dev/full ]; then
        "$program" "$@" > /dev/full 2> err
        got=$?
        is "$* > /dev/full" 123 ""
    fi
}
outputs rewrite m1
outputs plain w1
outputs run w1
outputs run --report w1
outputs trace m1
outputs replay told
outputs plan told
outputs demo 0

# Where the text of a status can't be put the status stays; a report that can't be put is told.
errors() {
    code=$1
    shift
    : > err
    "$program" "$@" > out 2>&-
    got=$?
    is "$* 2>&-" "$code" ""
    if [ -c /dev/full ]; then
        "$program" "$@" > out 2> /dev/full
        got=$?
        is "$* 2> /dev/full" "$code" ""
    fi
}
errors 119 plain none
errors 120
errors 121 run empty
errors 118 plan m1
errors 123 run --report m1
errors 7 run m1
[ -c /dev/full ] || skipped="$skipped, skipped: a full disk"

echo "hostile_files: $tried tries, $wrong wrong$skipped"
[ "$wrong" = 0 ]
