#!/usr/bin/env bash
# Builds linkcheck and tries it: reports against compare/reports.tsv, exit statuses, the stored outputs of expected/, texts with and without
# a line of kind 8, measures against those of test/measures.py, missing values against those of test/values.py, first internal steps against
# those of test/first.py, runs and explanations against those of test/runs.py, walks against test/walk.py, objects against schema.json, typed
# tables and the places of faults by test_typed.sh, what a store needs by test_store.sh, transition systems and pictures by
# test_pictures.sh, and every look at every table and at damaged ones with the sanitizers and valgrind, where they are there. Ends with 1 at
# the first fault.
# Usage: test.sh [COUNT [SEED]] for the damaged texts; test.sh --remake stores the outputs of expected/ anew.
set -euo pipefail
cd "$(dirname "$0")/.."
export LC_ALL=C
remake=no
if [ "${1:-}" = --remake ]; then remake=yes; shift; fi
count=${1:-4000}
seed=${2:-1}
work=$(mktemp -d)
. tools/beside.sh
trap 'none_beside; rm -rf "$work"' EXIT
tables=compare/tables
linkcheck=$PWD/target/bin/linkcheck
linkcheck/build.sh

fail() {
    echo "linkcheck test: $*" >&2
    exit 1
}
# judged STATUS: each table has its verdict.
judged() { [ "$1" -le 2 ] || [ "$1" = 4 ]; }

# changes FOLDER TABLE: in the folder, a table for each line of standard input, which is a name and a change of test/TABLE.txt. A word of
# `stands_for` in a change stands for what it has. The first is the table as it is given; each other changes it.
declare -A stands_for
changes() {
    local name change word
    mkdir "$work/$1"
    while read -r name change; do
        for word in "${!stands_for[@]}"; do change=${change/$word/${stands_for[$word]}}; done
        sed "$change" "linkcheck/test/$2.txt" | "$linkcheck" --columns > "$work/$1/$name.txt" || fail "$name: no columns"
        if [ "$name" != given ] && cmp -s "$work/$1/"{given,"$name"}.txt; then fail "$name: no change"; fi
    done
}

# The same with the sanitizers, where they are there.
export ASAN_OPTIONS=exitcode=99:verify_asan_link_order=0 UBSAN_OPTIONS=print_stacktrace=1
beside sanitized linkcheck/build.sh "$work/sanitized" -g -O1 -fsanitize=address,undefined -fno-sanitize-recover=all

# ---- marks: changes of a typed table, by name ----

# The board of test/marked.txt sends a price to its display: it is lost (sum value 0), delivered (1 and 3) or garbled (2). A garbled price
# is thrown away, and what is shown may be refreshed for ever. Marked are sum value 3 and throwing away.
changes marks marked << 'END'
given
all-marked $s/.*/8 10 10 10/
all-marked-not-by-10 $s/.*/8 10 14 11 16 10 10/
none-marked $s/.*/8 11 11 11/
garbling-marked $s/ 12 2 0 3 / 14 12 2 0 0 /
one-price-unmarked $s/ 12 2 0 3 / 15 12 2 0 3 14 12 1 1 0 2 /
no-row-of-show /^3  2/d
no-step-at-all /^3  2/d; /^3  0 1   12 1 0 0 2/d; $s/ 11$//
unmarked-leads-outside /^3  0 1   12 1 0 0 2/s/1 0       1 1$/0 4 1 1/
unmarked-changes-price /^3  0 1   12 1 0 0 2/s/1 1$/0 0/
no-internal-row /^3  0/d; /^3  1/s/0 1 /0 2 /; s/^5.*/5 16 12 1 0 0 0 12 1 0 0 2/; $s/.*/8/
depth-32 $s/11$/14 14 14 14 14 14 14 14 14 14 14 14 14 14 14 14 14 14 14 14 14 14 14 14 14 14 14 14 14 14 14 10/
depth-33 $s/11$/14 14 14 14 14 14 14 14 14 14 14 14 14 14 14 14 14 14 14 14 14 14 14 14 14 14 14 14 14 14 14 14 10/
two-lines $p
before-the-measure /^7/{h;d;}; $G
too-few $s/ 11$//
too-few-none $s/.*/8/
too-many $s/$/ 10/
too-many-without-rows /^3  0/d; $s/.*/8 10/
ends-in-a-formula $s/11$/14/
fields-after-the-last $s/$/ 7/
value-for-a-formula $s/11$/3 0 1 0 1/
no-such-parameter $s/11$/12 1 2 0 0/
internal-row-of-ours s/^4  1 4/4  0 4/
END

# ---- values that are missing: changes of a typed table, by name ----

# The board of test/values.txt is told how many pumps are open (row 1), takes a car's ticket s and works out its pump, s mod pumps (row 2),
# sends that to its display, where it may be lost (row 3), and calls the car (row 4). Row 2 asks that a pump is open. In a change the lines
# are: 7 to 10 its rows, 11 to 13 ours, 14 the invariant, 15 the mapping, 16 the measure, 17 the mark.
# open_some: `open` asks for a pump. no_pump: the number of the pump is 0 everywhere but on the board.
stands_for[open_some]='s/^\([34]  3 3   \)12 1 0 0 0/\115 12 1 0 0 0 14 12 2 0 0/'
stands_for[no_pump]='15s/1 2$/0 0/; s/^\([34]  1 3 .*\)5 2 1 1$/\10 0/; s/^\([34]  2 1 .*\)1 2    0 0/\10 0    0 0/'
changes values values << 'END'
given
invariant 14s/10/13 5 1 2 1 1 0 9/
invariant-at-start 14s/10/13 5 1 2 4 1 1 0 1 0 9/
invariant-after-a-step 14s/10/13 5 1 2 4 1 1 0 2 0 9/
invariant-after-a-step-and-condition 14s/10/13 5 1 2 4 1 1 0 2 0 9/; 10s/12 1 0 0 2/15 12 1 0 0 2 13 5 1 2 1 1 0 9/
invariant-after-a-step-out-of-the-sizes 14s/10/13 5 1 2 4 1 1 0 3 0 9/; 7s/2      1 2$/3 2 0 1   1 2/
invariant-after-an-internal-step 14s/10/13 5 1 2 4 1 0 0 2 0 9/
invariant-and-after-false 14s/10/14 15 11 12 5 0 1 1 1 0 0/
invariant-or-after-true 14s/10/16 10 12 5 0 1 1 1 0 0/
invariant-and-before-false 14s/10/14 15 12 5 0 1 1 1 0 0 11/
invariant-excludes-no-pumps 14s/10/14 12 1 1 0 0/; open_some; 8s/15 \(12 1 0 0 0\).* 2  /\1 2  /
invariant-excludes-but-open-leads-there 14s/10/14 12 1 1 0 0/; 8s/15 \(12 1 0 0 0\).* 2  /\1 2  /
invariant-excludes-by-and 14s/10/15 14 12 1 1 0 0 13 5 1 2 1 1 0 9/
invariant-excludes-by-choice 14s/10/13 0 0 6 12 1 1 0 0 0 0 3 0 1 5 1 2 1 1/; open_some
mapping 15s/1 2$/6 12 1 1 0 0 5 1 2 1 1 1 2/
mapping-at-start 15s/1 2$/6 12 1 1 0 1 5 1 2 0 0 1 2/
mapping-after-a-step 15s/1 2$/6 12 1 1 0 2 5 1 2 4 1 1 0 2 1 2/
mapping-after-an-internal-step 15s/1 2$/6 12 1 0 0 2 5 1 2 4 1 0 0 2 1 2/
measure-branch-not-taken 16s/.*/7 6 12 1 0 0 1 6 12 1 1 0 0 0 1 3 0 1 5 0 3 1 1 0 0/
measure-branch-taken 16s/.*/7 6 12 1 0 0 1 6 12 1 1 0 0 3 0 1 5 0 3 1 1 0 1 0 0/
measure-choice-by-none 16s/.*/7 6 12 1 0 0 1 6 12 5 0 3 1 1 0 0 0 1 0 1 0 0/
measure-after-a-step 16s/.*/7 6 12 1 0 0 1 0 1 5 0 0 4 1 0 0 2/
measure-after-an-unmarked-step 16s/.*/7 6 12 1 0 0 1 6 12 1 2 0 2 5 0 1 0 0 0 1 0 0/; 9s/1 2$/6 12 2 0 0 0 2 0 0/; no_pump
measure-and-mapping 16s/.*/7 6 12 1 0 0 1 0 1 5 0 0 1 1/; 15s/1 2$/6 12 1 1 0 0 5 1 2 1 1 1 2/
measure-and-condition 16s/.*/7 6 12 1 0 0 1 0 1 5 0 0 1 1/; 10s/12 1 0 0 2/15 12 1 0 0 2 13 5 1 2 1 1 0 9/
condition 10s/12 1 0 0 2/15 12 1 0 0 2 13 5 1 2 1 1 0 9/
condition-for-a-sum-value 7s/12 1 0 0 0/15 12 1 0 0 0 14 12 5 0 1 4 2 0 1 0 9/
mark 17s/12 2 0 1/15 12 2 0 1 13 5 1 2 1 1 0 9/
data 10s/1 2    0 0/5 1 2 1 1    0 0/
data-reached 10s/1 2    0 0/5 1 2 4 1 1 0 1    0 0/
next-value 8s/15 \(12 1 0 0 0\).* 2  /\1 2  /
several-in-rows 8s/15 \(12 1 0 0 0\).* 2  /\1 2  /; 10s/12 1 0 0 2/15 12 1 0 0 2 13 5 1 2 1 1 0 9/; 17s/12 2 0 1/13 5 1 2 1 1 0 9/
no-guard s/^\([34]  1 3   \)15 \(12 1 0 0 0\) 14 12 1 1 0 0/\1\2/
ours-condition 13s/12 1 0 0 1/15 12 1 0 0 1 13 5 1 2 1 1 0 9/
ours-data 13s/1 2    0 0/5 1 2 1 1    0 0/
ours-next-value 12s/15 \(12 1 0 0 0\).* 2  /\1 2  /
ours-of-an-action-the-board-has-not 13s/$/\n4  9 2   13 5 1 2 4 1 1 2 0 9   2   1 0 1 1 1 2/
ours-outside-the-sizes 13s/12 1 0 0 1/15 12 1 0 0 1 13 5 1 2 1 1 0 9/; 15s/1 2$/6 12 1 1 0 0 0 7 1 2/
remainder-in-a-dividend 10s/1 2    0 0/5 5 1 2 0 0 1 1    0 0/
remainder-in-a-divisor 10s/1 2    0 0/5 1 2 5 1 2 3 1 1 1 1    0 0/
divisor-of-several 14s/10/13 5 3 1 2 0 5 4 1 0 6 12 1 1 1 2 0 0 0 9 0 9/
END

# ---- first internal steps: changes of a typed table, by name ----

# The board of test/first.txt tests its display until that succeeds (row 4, for sum value 1), and is then ready. Row 5 is never enabled. In a
# change the lines are: 1 and 2 its parameters, 3 and 4 ours, 6 to 10 its rows, 16 the measure, 17 the marks.
# ready: it starts without a test. again: row 5 leads from each ready state back to it.
stands_for[ready]='1s/3$/0/'
stands_for[again]='10s/11  /12 1 0 0 0/'
changes first first << 'END'
given
ready ready
again ready; again
again-and-test again
again-marked ready; again; $s/11$/10/
again-marked-elsewhere ready; again; $s/11$/12 1 0 0 3/
again-fails ready; again; 16s/0 1 0 0$/0 0 0 0/
first-of-two 10s/11  /12 1 0 0 3/
marked-after-unmarked 10s/11  /12 1 0 0 3/; 9{h;d;}; 10G; $s/12 2 0 1   11/11 12 2 0 1/
has-a-price 1s/3$/1/; 3s/0$/1/
other-price 2s/0$/2/; 4s/0$/2/
later-sum-value 9s/12 1 0 0 3/15 12 1 0 0 3 12 2 0 1/
last-of-256 9s/0 2   12 1 0 0 3/0 256 15 12 1 0 0 3 12 2 0 255/; 9s/12 2 0 1 /12 2 0 255 /; $s/12 2 0 1/12 2 0 255/
not-for-a-sum-value ready; 10s/0 1   11  /0 2 15 12 1 0 0 0 12 2 0 2/
no-marks $d; 9s/0 2/0 1/; 9s/6 12.*0 3  /0 0  /
no-marks-ready $d; 9s/0 2/0 1/; 9s/6 12.*0 3  /0 0  /; ready
by-a-choice 9s/12 1 0 0 3/12 1 0 6 13 1 0 0 4 0 3 5 0 7 0 0/
fails-without-a-value 9s/12 1 0 0 3/12 0 7 6 12 1 0 0 3 5 0 7 0 0 0 0/
END

# ---- typed tables and texts with several faults ----

# Typed: one that is right, one where lines are wrong, one where there is something else than numbers. In columns: line ends, columns, and
# lines that are typed.
mkdir "$work"/{typed,places}
cat > "$work/typed/right.txt" << 'END'
# The pump table.
1 3 0   # the phase: 0 ready, 1 has taken a price, 2 about to show it
1 4 0   # the price
2 2 0
2 4 0

# Rows: action and span, condition, data, next values.
3 01 4  12 1 0 0 0  2    0 1  2
3 00 1  12 1 0 0 1  0 0  0 2  1 1
3 02 1  12 1 0 0 2  1 1  0 0  1 1

4 1 4   12 1 0 0 0  2    0 1  2
4 2 1   12 1 0 0 1  1 1  0 0  1 1
5 10
6 6 12 1 0 0 0 0 0 0 1   1 1
7 6 12 1 0 0 1 0 1 0 0
END
while read -r name change; do sed "$change" "$work/typed/right.txt" > "$work/typed/$name.txt"; done << 'END'
fails 10s/1 1  0 0/0 0  0 0/
terms 9s/  1 1$//; 10s/0 2 /9 2 /; 14s/10/12 2 0 0/; 15s/$/ 7/; 16s/1 0 0 1/1 5 0 1/; 12s/12 1 0/12 1/
kinds 2s/ 0 / 0 0 /; 5s/2/9/; 9s/3/4/; 16d
numbers 2s/3/0/; 3s/ 0/ 4/; 8s/4 /0 /; 12s/4  /300 /
sizes 2s/3/300/; 3s/4/300/
actions 8s/01/2/; 9s/0 0  0 2/1 0  0 2/; 12s/1 4/0 4/; 13s/2 1/2 2/
words 3s/0/zero/; 8s/01/a1/; 9s/00/-0/; 10s/12 1/p0=/; 14s/10/65536/; 16s/$/ \\/
END
printf '     1     3  \t  0\n     1     4 00001\n            2     2     0\n     2 70000     0\n      \n' > "$work/places/columns.txt"
printf '     1\342\202\254     3\n     1     3     x\n     2     2 0    \n\n     1   "\\2\n     3' >> "$work/places/columns.txt"
sed 's/$/\r/' "$tables/P_given.txt" > "$work/places/lines.txt"
sed '2,3s/$/\r/' "$tables/P_given.txt" > "$work/places/some-lines.txt"
cp "$work/typed/right.txt" "$work/places/typed.txt"
yes 2> /dev/null | tr -d y | head -n 200 > "$work/places/empty-lines.txt" || true
: > "$work/places/nothing.txt"

# ---- runs to a failing state: changes of a typed table, by name ----

# The board of test/runs.txt starts in p0 = 4. By row 1 it comes to 5, 6 or 7, from 5 to 6 (row 2), and from 6 (row 3) and 7 (row 4) to 0,
# which is mapped to a state that there isn't: criterion 2 fails in state 0. In a change the lines are: 4 to 7 its rows, 8 and 9 ours, 10 the
# invariant, 11 the mapping, 12 the measure.
# no_size: no state is mapped elsewhere than to 0, so that criterion 2 holds.
stands_for[no_size]='11s/0 1   0 0/0 0   0 0/'
changes runs runs << 'END'
given
other-way 6s/12 1 0 0 6/11/
longer-way 4s/3 0 5 2/0 5/; 6s/12 1 0 0 6/12 1 1 0 1/; 6s/1 1$/0 0/
later-sum-value 4s/12 1 0 0 4/15 12 1 0 0 4 14 12 2 0 1/
no-condition-for-a-sum-value 4s/12 1 0 0 4/15 12 1 0 0 4 14 12 2 6 12 2 0 1 5 2 0 0 0 9/
no-data-for-a-sum-value 4s/4      2  /4      6 12 2 0 1 5 2 0 0 2  /
no-next-value-for-a-sum-value 4s/1 1$/6 12 2 0 1 5 2 0 0 1 1/
no-data-on-either-way 6s/12 1 0 0 6/11/; 7s/1 1     0 0/5 1 1 0 0     0 0/
no-mark-on-the-way $s/$/\n8 10 12 5 0 1 0 0 0 0/
outside-on-a-way 4s/3 0 5 2/3 0 5 3 2 2/
invariant-fails-on-the-way 10s/10/14 12 1 0 0 6/
invariant-lacks-on-the-way 10s/10/13 5 0 1 4 1 0 0 6 0 9/
invariant-lacks-in-the-state 10s/10/13 5 0 1 1 0 0 9/
invariant-lacks-in-a-state-not-reached 10s/10/13 5 0 1 1 0 0 9/; 6s/0 0       1 1$/0 1 1 1/; 7s/0 0       1 1$/0 1 1 1/
not-reached 6s/0 0       1 1$/0 1 1 1/; 7s/0 0       1 1$/0 1 1 1/
not-reached-round 5s/0 6  /0 5  /; 6s/0 0       1 1$/0 4 1 1/; 7s/0 0       1 1$/0 6 1 1/
starts-there 1s/4/0/; no_size
two-fail-at-start 10s/10/15 15 10 12 1 0 0 1 15 12 1 1 0 2 11/
last-fails-at-start 10s/10/15 10 15 12 1 0 0 4 16 12 1 1 0 2 11/
two-fail-after-a-step 10s/10/15 14 12 1 0 0 5 15 12 1 0 0 4 13 1 0 0 5/
two-fail-of-ours 8s/10  /15 12 1 0 0 0 15 12 1 0 2 15 13 1 0 0 0 12 2 0 2/; 9s/10/11/; no_size
two-fail-of-the-boards 4s/12 1 0 0 4/15 12 1 0 0 4 15 14 12 1 1 0 0 14 12 2 0 0/; no_size
END

# What a store needs, systems and pictures go beside the rest.
mapfile -t some < <(printf '%s\n' "$tables"/*.txt | awk 'NR % 8 == 0')
store_and_pictures() {
    linkcheck/test_store.sh "$tables" "$work"/{marks,values,first} || fail "a store"
    linkcheck/test_pictures.sh examples/*.txt "$tables"/{P_,m_c}*.txt "$work"/{marks,values,first}/*.txt "${some[@]}" || fail "pictures"
}
sanitized=
if ended sanitized && "$work/sanitized" --help > /dev/null 2>&1; then sanitized=$work/sanitized; fi
SANITIZED=$sanitized beside "a store and pictures" store_and_pictures

# ---- stored outputs: a name in expected/ and the arguments that give it, in the folder if one is set ----

boards=()
for name in P_given P_inv_false P_second_spec_size_3 P_first_size_2 P_row2_last_next_0 P_measure_0 P_cond_row3_true P_row2_removed P_data_row3 \
    P_second_map_0 c1_start_good_first inv_cuts abp_noloss__no_flip t1_far t234567 t34 t45 t56 t67 \
    t7_span_3_specification t4_kind_9_last kit_cabp; do
    boards+=("$tables/$name.txt")
done
expect() {
    local name=$1
    shift
    (cd "${folder:-.}" && "$linkcheck" "$@") > "$work/out" || judged $? || fail "$*: status $?"
    stored "$name" "$*"
}
stored() {
    if [ "$remake" = yes ]; then cp "$work/out" "linkcheck/expected/$1"; fi
    diff "linkcheck/expected/$1" "$work/out" || fail "$2 differs from expected/$1"
}
# expect_each NAME OPTIONS FILE...: what is said of each file, messages too, and the statuses above 0.
expect_each() {
    local name=$1 options=$2 file
    shift 2
    for file in "$@"; do
        # shellcheck disable=SC2086
        (cd "${folder:-.}" && "$linkcheck" $options "$file" 2>&1) || echo "status $?"
    done > "$work/out"
    stored "$name" "$options"
}
expect words.txt "${boards[@]}"
expect words.json --json "${boards[@]}"
expect examples.txt examples/*.txt
expect pump.txt --show "$tables/P_given.txt"
expect abp.txt --show "$tables/abp_noloss.txt"
expect columns.txt --columns linkcheck/test/typed.txt
expect pump.impl.aut --aut impl "$tables/P_given.txt"
expect pump.spec.aut --aut spec "$tables/P_given.txt"
expect pump.impl.dot --dot impl "$tables/P_given.txt"
expect pump.spec.dot --dot spec "$tables/P_given.txt"
expect pump.impl.states --aut-states impl "$tables/P_given.txt"
expect pump.spec.states --aut-states spec "$tables/P_given.txt"
expect diesel.dot --dot examples/bad-yesterdays-diesel.txt
expect outside.dot --dot "$tables/P_first_size_2.txt"
expect around.dot --dot --around 33,1 examples/bad-yesterdays-diesel.txt
expect folded.dot --dot impl examples/alternating-bit.txt
folder=$work expect marks.txt marks
folder=$work expect marks.json --json marks
folder=$work expect marked.txt --show marks/given.txt
folder=$work expect marked.impl.aut --aut impl marks/given.txt
folder=$work expect marked.impl.dot --dot impl marks/given.txt
folder=$work expect values.report --report values
folder=$work expect values.txt values
folder=$work expect values.json --json values
folder=$work expect first.report --report first
folder=$work expect first.txt first
folder=$work expect first.json --json first
folder=$work expect runs.txt runs
folder=$work expect runs.json --json runs
folder=$work expect after.txt --show first/again.txt
folder=$work expect missing.txt --show values/ours-next-value.txt
folder=$work expect missing.impl.aut --aut impl values/data-reached.txt
folder=$work expect missing.condition.aut --aut impl values/condition-for-a-sum-value.txt
folder=$work expect missing.impl.dot --dot impl values/data-reached.txt
folder=$work expect missing.next.dot --dot values/no-guard.txt
short=(examples/{pump,retry,buffer-two}.txt)
for name in P_measure_0 P_inv_false P_first_size_2 c1_invariant_middle abp_plain m_c5_both_loops_marked t45 t67; do
    short+=("$tables/$name.txt")
done
expect_each measures.txt --measure "${short[@]}" examples/{buffer-one,alternating-bit,concurrent-alternating-bit-with-loss}.txt
expect_each measures.json "--measure --json" "${short[@]}"
mapfile -t values < <(cd "$work" && printf '%s\n' values/*.txt)
folder=$work expect_each values.measures.txt --measure "${values[@]}"
folder=$work expect_each values.measures.json "--measure --json" "${values[@]}"
mapfile -t typed < <(cd "$work" && printf '%s\n' typed/*.txt)
mapfile -t places < <(cd "$work" && printf '%s\n' places/*.txt)
folder=$work expect typed.txt --typed typed
folder=$work expect typed.json --typed --json typed
folder=$work expect_each typed.places.txt "--typed --show" "${typed[@]:3}"
folder=$work expect_each places.txt --show "${places[@]}"
folder=$work expect places.json --json places
cmp "$tables/P_given.txt" linkcheck/expected/columns.txt
"$linkcheck" --typed --columns "$work/typed/right.txt" | cmp - "$tables/P_given.txt" || fail "typed/right.txt is not the pump table"
# walks NAME TABLE: a walk by the commands in standard input, a line each.
walks() {
    (cd "${folder:-.}" && "$linkcheck" --walk "$2") > "$work/out" || fail "--walk $2: status $?"
    stored "$1" "--walk $2"
}
printf '%s\n' 2 1 1 b b b b "g 33" g33 " g  33 " "g 48" g "g x" 0 7 99999999999 x '?' "" "$(printf '%0200d' 1)" s q 1 |
    walks diesel.walk examples/bad-yesterdays-diesel.txt
printf '1\r\n\t1 \n1\n2' | walks retry.walk examples/retry.txt
printf '%s\n' 1 1 2 3 b "g 12" | folder=$work walks marked.walk marks/given.txt
printf '%s\n' "g 4" 1 | walks outside.walk "$tables/P_first_size_2.txt"
printf '%s\n' "g 0" "g 2" "g 19" | walks weak.walk examples/service-mode.txt
printf '%s\n' "g 3" | walks size.walk "$tables/P_second_spec_size_3.txt"
printf '%s\n' "g 0" 3 | folder=$work walks missing.next.walk values/ours-next-value.txt
printf '%s\n' "g 9" | folder=$work walks missing.measure.walk values/measure-branch-taken.txt
for part in invariant mapping mark condition-for-a-sum-value; do
    echo "g 0" | folder=$work walks "missing.$part.walk" "values/$part.txt"
done
# Many steps: 256 that differ, of which the last are taken all the same, 256 of which 200 do the same but for our data, and three that do
# the same but don't come one after the other.
"$linkcheck" --columns > "$work/many.txt" << 'END'
1 256 0
1 2 0
2 256 0
3 1 256 12 1 1 0 0   2   2 1 1
3 2 256 13 2 0 200   0 7   1 0 0 1
3 3 6   12 5 2 0 2 0 0  0 7   1 0 1 1
4 1 256 10           2   2
4 2 256 10           2   1 0
4 3 6   10           0 7 1 0
5 10
6 1 0
7 0 0
END
printf '%s\n' 41 256 257 260 261 | folder=$work walks many.walk many.txt
# The pages show what is said.
shown() { grep -qxF -e "    $1" "$2" || fail "$2 does not show: $1"; }
while read -r line; do shown "$line" examples/README.md; done < linkcheck/expected/examples.txt
"$linkcheck" examples/pump.txt examples/bad-yesterdays-diesel.txt > "$work/out" || true
while read -r line; do shown "$line" README.md; done < "$work/out"
"$linkcheck" examples/self-test.txt > "$work/out" || [ $? = 4 ] || fail "examples/self-test.txt: status $?"
shown "$(head -n 1 "$work/out")" README.md
"$linkcheck" --json examples/acknowledge-again.txt > "$work/out" || [ $? = 4 ] || fail "examples/acknowledge-again.txt: status $?"
shown "$(cat "$work/out")" linkcheck/README.md
"$linkcheck" "$tables/P_cond_row3_true.txt" > "$work/out" || true
shown "$(head -n 1 "$work/out")" linkcheck/README.md
printf '%s\n' 'g 33' | "$linkcheck" --walk examples/bad-yesterdays-diesel.txt | tail -n 9 > "$work/out"
while IFS= read -r line; do shown "$line" linkcheck/README.md; done < "$work/out"
for name in retry concurrent-alternating-bit-with-loss; do
    sed '$d' "examples/$name.txt" | "$linkcheck" - > "$work/out" || true
    shown "$(head -n 1 "$work/out")" examples/README.md
    sed '$d' "examples/$name.txt" | "$linkcheck" --measure - > "$work/out" || true
    while read -r line; do shown "$line" examples/README.md; done < "$work/out"
done
while read -r line; do shown "$line" README.md; done < "$work/out"
"$linkcheck" --measure examples/buffer-two.txt > "$work/out"
while read -r line; do shown "$line" README.md; done < "$work/out"

# ---- reports ----

sort compare/reports.tsv | cut -f 2 > "$work/due"
for jobs in 1 3; do
    "$linkcheck" --report -j "$jobs" "$tables" > "$work/reports" || [ $? = 2 ] || fail "--report -j $jobs: status"
    cmp "$work/due" "$work/reports" || fail "--report -j $jobs differs from compare/reports.tsv"
done
"$linkcheck" "$tables" > "$work/words" || true
"$linkcheck" -j 7 "$tables" > "$work/words7" || true
cmp "$work/words" "$work/words7" || fail "-j 7 differs"

# ---- exit statuses ----

status() {
    local due=$1 got=0
    shift
    "$linkcheck" "$@" > "$work/out" 2> "$work/error" < "${input:-/dev/null}" || got=$?
    [ "$got" = "$due" ] || fail "$*: status $got, $due is due"
    if { [ "$due" = 3 ] || [ "$due" = 64 ]; } && ! [ -s "$work/error" ]; then fail "$*: no message"; fi
    if [ "$due" = 4 ] && [ -s "$work/error" ]; then fail "$*: $(cat "$work/error")"; fi
}
# counts WORDS: the summary line.
counts() { [ "$(tail -n 1 "$work/out")" = "$1" ] || fail "\"$1\" is due, not \"$(tail -n 1 "$work/out")\""; }
good=$tables/P_given.txt bad=$tables/P_data_row3.txt none=$tables/t45.txt after=examples/self-test.txt
status 0 "$good"
status 1 "$good" "$bad"
status 2 "$bad" "$none" "$good"
status 3 "$good" "$work/missing" "$none"
grep -q "^2 tables: 1 accepted, 0 failed, 1 turned down; 1 not read" "$work/out" || fail "the run does not go on after a missing file"
# The gravest counts, wherever it stands: not read, turned down, failed, accepted after a first internal step.
for jobs in 1 2 3; do
    status 0 -j $jobs "$good" "$good"
    counts "2 tables: 2 accepted, 0 failed, 0 turned down"
    status 4 -j $jobs "$good" "$after" "$good"
    counts "3 tables: 2 accepted, 1 accepted after a first internal step, 0 failed, 0 turned down"
    status 4 -j $jobs "$after"
    counts "1 table: 0 accepted, 1 accepted after a first internal step, 0 failed, 0 turned down"
    status 1 -j $jobs "$after" "$bad" "$after"
    counts "3 tables: 0 accepted, 2 accepted after a first internal step, 1 failed, 0 turned down"
    status 2 -j $jobs "$none" "$after" "$bad"
    counts "3 tables: 0 accepted, 1 accepted after a first internal step, 1 failed, 1 turned down"
    status 2 -j $jobs "$after" "$none"
    counts "2 tables: 0 accepted, 1 accepted after a first internal step, 0 failed, 1 turned down"
    status 3 -j $jobs "$after" "$work/missing"
    counts "1 table: 0 accepted, 1 accepted after a first internal step, 0 failed, 0 turned down; 1 not read"
    for format in --report --json; do
        status 4 $format -j $jobs "$good" "$after"
        status 1 $format -j $jobs "$after" "$bad"
        status 3 $format -j $jobs "$work/missing" "$after"
    done
done
input=$after status 4 -
status 4 --show "$after"
for look in "--aut impl" "--aut-states spec" --dot --mark --unmark --measure; do
    # shellcheck disable=SC2086
    status 0 $look "$after"
done
input=$good status 0 -
status 2 -
status 0 --show "$good"
status 1 --show "$bad"
status 2 --show "$none"
status 3 --show "$work/missing"
status 0 --aut impl "$bad"
status 2 --aut impl "$none"
status 1 --aut impl "$tables/P_inv_false.txt"
grep -q 'the invariant does not hold in the initial state' "$work/error" || fail "--aut without a state: $(cat "$work/error")"
status 1 --dot impl "$work/values/invariant-at-start.txt"
grep -q 'the invariant has no value in the initial state' "$work/error" || fail "--dot without a state: $(cat "$work/error")"
status 0 --dot spec "$work/values/invariant-at-start.txt"
status 1 --show "$work/values/no-guard.txt"
status 2 --measure "$work/values/no-guard.txt"
status 0 --measure "$work/values/measure-branch-taken.txt"
status 3 --dot spec "$work/missing"
status 0 --walk "$good"
status 0 --walk "$bad"
status 2 --walk "$none"
grep -qx "linkcheck: $none: turned down 4 (kinds of lines): no line of kind 7" "$work/error" || fail "--walk $none: $(cat "$work/error")"
status 3 --walk "$work/missing"
status 3 --walk "$work"
status 64 --walk
status 64 --walk -
status 64 --walk "$good" "$bad"
status 64 --walk --json "$good"
status 64 --walk --show "$good"
status 64 --walk -j 2 "$good"
status 0 --help
[ "$("$linkcheck" --version)" = "linkcheck $(cat VERSION)" ] || fail "--version is not that of the file VERSION"
status 2 --columns README.md
status 3 --columns "$work/missing"
status 2 /dev/zero
status 64
status 64 --no-such-option
status 64 -j
status 64 -j 0 "$good"
status 64 -j 1x "$good"
status 64 --show
status 64 --show "$good" "$bad"
for look in --aut --aut-states; do
    status 64 $look
    status 64 $look "$good"
    grep -q "impl or spec is due before the file, after: $look" "$work/error" || fail "$look without a side: $(cat "$work/error")"
    status 64 $look impl "$good" "$bad"
    status 64 $look both "$good"
done
status 64 --dot
status 64 --dot both "$good"
status 64 --dot impl spec "$good"
for around in "" x "1," 1,x 1,101 65536 1,2,3 -1 " 1" 1,-1; do status 64 --dot --around "$around" "$good"; done
status 64 --dot "$good" --around
status 64 --dot --around 1 spec "$good"
status 64 --around 1 "$good"
status 64 --show --around 1 "$good"
status 1 --dot --around 12 "$good"
grep -q 'there is no state' "$work/error" || fail "--around a state that is none: $(cat "$work/error")"
status 1 --dot --around 0 "$tables/P_inv_false.txt"
grep -q 'the invariant does not hold in the state' "$work/error" || fail "--around outside: $(cat "$work/error")"
status 0 --dot --around 0 "$good"
status 0 --dot impl --around 11,100 "$good"
status 0 --typed "$work/typed/right.txt"
status 1 --typed "$work/typed/right.txt" "$work/typed/fails.txt"
status 2 --typed "$work/typed"
status 3 --typed "$work/typed" "$work/missing"
status 3 --typed --columns "$work/missing"
status 64 --report --json "$good"
status 64 --show --json "$good"
if [ -c /dev/full ]; then "$linkcheck" "$good" > /dev/full 2> "$work/error" && fail "a full disk is not noticed"; fi

# ---- texts with and without a line of kind 8 ----

# gives FILE ARGUMENTS...: the bytes of the file are written, and no message.
gives() {
    local due=$1
    shift
    status 0 "$@"
    cmp "$due" "$work/out" || fail "$*: other bytes than those of $due"
    if [ -s "$work/error" ]; then fail "$*: $(< "$work/error")"; fi
}
# turned_down WORDS OPTION FILE: nothing is written, and the message has these words.
turned_down() {
    status 2 "$2" "$3"
    if [ -s "$work/out" ]; then fail "$2 $3: written, though it is turned down"; fi
    [ "$(< "$work/error")" = "linkcheck: $3: $1" ] || fail "$2 $3: \"$1\" is due, not \"$(< "$work/error")\""
}
with_line() { awk '{ print } /^     3     0/ { formulas = formulas "    10" } END { print "     8" formulas }' "$1"; }
# A table without the line gets it, unless the fields are too many, and loses it again.
try_unmarked() {
    local marked=$work/marked/${1##*/} fields
    with_line "$1" > "$work/due_text"
    fields=$(($(tr -d '\n' < "$work/due_text" | wc -c) / 6))
    gives "$1" --unmark "$1"
    if [ "$fields" -gt 4096 ]; then
        turned_down "turned down 16 (length of the result): $fields fields with the line of kind 8, at most 4096 in all" --mark "$1"
        return
    fi
    gives "$work/due_text" --mark "$1"
    cp "$work/out" "$marked"
    gives "$1" --unmark "$marked"
    printf '%s\n' "$2" >> "$work/due_reports"
}
# A table with the line keeps it, and loses it if its formulas are 10.
try_marked() {
    local last
    last=$(tail -n 1 "$1")
    gives "$1" --mark "$1"
    if [ "${last//"    10"/}" = "     8" ]; then
        gives <(sed '$d' "$1") --unmark "$1"
    else
        status 2 --unmark "$1"
        if [ -s "$work/out" ]; then fail "--unmark $1: written, though it is turned down"; fi
        [[ $(< "$work/error") =~ ": turned down 15 (marks), line $(wc -l < "$1"): the formula of row "[1-9][0-9]*" is not 10"$ ]] ||
            fail "--unmark $1: 15 is due, not \"$(< "$work/error")\""
    fi
}
# What is turned down by the check is so here, with the same words.
mkdir "$work/marked"
tried=0
while IFS= read -r line <&3 && IFS= read -r report <&4; do
    table=${line%%  *} words=${line#*  }
    # Those about criteria, about first steps and about many states have nothing new for a writer.
    if [[ $table =~ /[crs][0-9]*_ ]]; then continue; fi
    if [[ $words == "turned down "* ]]; then for look in --mark --unmark --measure; do turned_down "$words" $look "$table"; done
    elif tail -n 1 "$table" | grep -q '^     8'; then try_marked "$table"
    else try_unmarked "$table" "$report"; fi
    tried=$((tried + 1))
done 3< "$work/words" 4< "$work/due"
[ "$tried" -ge 500 ] || fail "only $tried tables tried with --mark and --unmark"
"$linkcheck" --report "$work/marked" > "$work/reports" || [ $? = 1 ] || fail "a text with a line of kind 8 is turned down"
cmp "$work/due_reports" "$work/reports" || fail "the line of kind 8 changes a report"
gives "$tables/m_P_given.txt" --mark "$good"
input=$good gives "$tables/m_P_given.txt" --mark -
input=$tables/m_P_given.txt gives "$good" --unmark -
turned_down "turned down 15 (marks), line 15: the formula of row 3 is not 10" --unmark "$work/marks/all-marked-not-by-10.txt"
# The last of its 15 marks becomes its invariant, so that with marks `10` the table comes to just that many fields again.
for fields in 4096 4097; do
    awk 'NR == FNR { last = $0; next } /^     5/ { $0 = "     5" substr(last, 91) } !/^     8/' \
        "$tables/m_t3_fields_$fields.txt" "$tables/m_t3_fields_$fields.txt" > "$work/with_$fields"
done
gives <(with_line "$work/with_4096") --mark "$work/with_4096"
turned_down "turned down 16 (length of the result): 4097 fields with the line of kind 8, at most 4096 in all" --mark "$work/with_4097"
turned_down "turned down 4 (kinds of lines): no line of kind 7" --mark "$none"
for look in --mark --unmark; do
    status 2 $look /dev/zero
    status 3 $look "$work/missing"
    status 3 $look "$work"
    status 64 $look
    status 64 $look "$good" "$bad"
    status 64 $look --json "$good"
    status 64 $look -j 2 "$good"
    status 64 $look --show "$good"
done

# ---- measures ----

# measures_of FILE...: what is said of each, held against the table.
measures_of() {
    local file
    for file in "$@"; do
        "$linkcheck" --measure --json "$file" || [ $? -le 2 ] || fail "--measure --json $file"
    done > "$work/measures"
    linkcheck/test/measures.py < "$work/measures" || fail "a measure is not the smallest"
    linkcheck/test/runs.py < "$work/measures" || fail "of a measure that there isn't, a run is not as it is said"
    linkcheck/test/schema.py < "$work/measures" || fail "--measure --json is not as schema.json says"
}
measures_of "$tables"/*.txt "$work"/{marks,values,first,runs}/*.txt
${CC:-cc} -std=c11 -Wall -Wextra -O2 linkcheck/test/slices.c target/staticlib/libmeasuring.a -o "$work/slices"
"$work/slices" "$tables"/*.txt "$work"/{marks,values,first}/*.txt || fail "a slice is not written as it should be"
if paste "$work/words" "$work/measures" | grep '  accepted' | grep -v '"own_meets":true'; then fail "accepted by another measure"; fi
sed '$d' examples/retry.txt > "$work/loop"
out_of_size=$tables/P_first_size_2.txt
# The longest run and the longest loop that can be: each state has a step to the next, the last to the first if it has one.
while read -r name condition; do
    "$linkcheck" --columns > "$work/$name" << END
1 256 0
1 256 0
2 1 0
3 0 1 $condition 0 0 6 12 1 1 0 255 5 3 1 0 0 1 0 256 1 0 5 3 1 1 0 1 0 256
5 10
6 0 0
7 0 0
END
done << 'END'
chain 14 15 12 1 0 0 255 12 1 1 0 255
ring 10
END
status 0 --measure "$work/chain"
grep -qxF "$work/chain  smallest measure: at most 65535, first in state 0 = (0, 0)" "$work/out" || fail "a long run"
status 1 --measure "$work/ring"
[ "$(wc -l < "$work/out")" = 65538 ] || fail "a long loop: $(wc -l < "$work/out") lines"
[ "$(sed -n 2p "$work/out")" = "$(tail -n 1 "$work/out"), row 1, sum value 0 ->" ] || fail "a long loop does not come back"
status 0 --measure "$good"
status 0 --measure "$bad"
status 1 --measure "$work/loop"
status 2 --measure "$out_of_size"
status 2 --measure "$none"
for options in --measure "--measure --json" "--json --measure"; do
    read -ra options <<< "$options"
    input=$good status 0 "${options[@]}" -
    input=$work/loop status 1 "${options[@]}" -
    status 2 "${options[@]}" -
    status 2 "${options[@]}" /dev/zero
    status 3 "${options[@]}" "$work/missing"
    status 3 "${options[@]}" "$work"
    status 64 "${options[@]}"
    status 64 "${options[@]}" "$good" "$bad"
    status 64 "${options[@]}" --report "$good"
    status 64 "${options[@]}" -j 2 "$good"
    status 64 "${options[@]}" --show "$good"
    status 64 "${options[@]}" --measure "$good"
done
status 64 --measure --mark "$good"
status 64 --aut --measure impl "$good"

# ---- long runs, and walks ----

# changing MAPPING: the chain with this mapping, of which no step is marked: criterion 4 alone can fail, where the mapping changes.
changing() {
    { sed '/^     [267]/d' "$work/chain"; printf '2 2 1\n6 %s\n7 0 0\n8 11\n' "$1"; } | sort -sn -k 1,1 |
        "$linkcheck" --columns > "$work/long"
}
# A run through every state but the last: shortened in words, whole for --show and as a JSON object.
changing "6 15 12 1 0 0 255 12 1 1 0 255 0 0 0 1"
status 1 "$work/long"
grep -qF '; reached: (0, 0) -tau-> (0, 1) -tau-> (0, 2) -tau-> (0, 3) -tau-> .. 65526 steps more .. (255, 250) -tau-> ' "$work/out" ||
    fail "a long run"
grep -q ' -tau-> (255, 253) -tau-> (255, 254)$' "$work/out" || fail "the end of a long run"
status 1 --show "$work/long"
[ "$(grep -c '^  state [0-9]* = ([0-9]*, [0-9]*), row 1, sum value 0: tau ->$' "$work/out")" = 65534 ] || fail "a long run with --show"
[ "$(tail -n 1 "$work/out")" = "  state 65534 = (255, 254)" ] || fail "the end of a long run with --show"
status 1 --json "$work/long"
cp "$work/out" "$work/long.json"
linkcheck/test/runs.py < "$work/long.json" || fail "a long run as a JSON object"
linkcheck/test/schema.py < "$work/long.json" || fail "a long run is not as schema.json says"
status 1 --json -j 2 "$work/long" "$work/long"
cat "$work/long.json" "$work/long.json" | cmp - "$work/out" || fail "a long run from another process"
# The longest run that stands whole on a line, and one more step.
for steps in 12 13; do
    changing "6 12 1 1 0 $((steps + 1)) 0 0 0 1"
    status 1 "$work/long"
    [ "$(head -n 1 "$work/out" | grep -o 'tau->' | wc -l)" = $((steps == 12 ? 12 : 8)) ] || fail "a run of $steps steps: $(cat "$work/out")"
done
grep -q ' .. 5 steps more .. ' "$work/out" || fail "a run of 13 steps: $(cat "$work/out")"
# Every state that is walked to, with every step and what the criteria say of it.
mapfile -t walked < <(grep -v -e 'turned down' -e '/s_' "$work/words" | sed 's/  .*//' | awk 'NR % 9 == 0')
mapfile -t with_marks < <(cd "$work" && "$linkcheck" marks | grep -v -e 'turned down' | sed "s,^,$work/,; s/  .*//")
linkcheck/test/walk.py "$linkcheck" "${walked[@]}" examples/*.txt "$work/many.txt" "$work"/{values,first,runs}/*.txt "${with_marks[@]}" ||
    fail "--walk shows something else than there is"
# There is a prompt exactly if the commands come from a terminal.
printf 'q\n' | "$linkcheck" --walk "$good" | grep -q '^> ' && fail "--walk prompts a script"
python3 - "$linkcheck" "$good" << 'END' || fail "--walk does not prompt at a terminal"
import os, pty, subprocess, sys
first, second = pty.openpty()
os.write(first, b'1\nq\n')
shown = subprocess.run([sys.argv[1], '--walk', sys.argv[2]], stdin=second, capture_output=True, check=True, timeout=60).stdout
sys.exit(shown.count(b'\n> ') != 2)
END

# Too many states.
"$linkcheck" --columns linkcheck/test/wide.txt > "$work/wide.txt"
status 1 --dot spec "$work/wide.txt"
grep -q 'too many for a picture' "$work/error" || fail "--dot of many states: $(cat "$work/error")"
status 1 --aut spec "$work/wide.txt"
grep -q 'over 65,536 states' "$work/error" || fail "--aut of many states: $(cat "$work/error")"

# Folders: name order, folders within, names with a dot left out, links to folders not followed, odd names on one line.
mkdir -p "$work/store/b/c" "$work/store/empty"
cp "$good" "$work/store/z.txt"
cp "$good" "$work/store/b/c/y.txt"
cp "$bad" "$work/store/a.txt"
cp "$bad" "$work/store/.hidden"
cp "$good" "$work/store/new"$'\n'"line \"\\"$'\377'.txt
ln -s .. "$work/store/b/loop"
status 3 "$work/store"
[ "$(sed "s,^$work/store/,," "$work/out" | cut -d ' ' -f 1 | tr '\n' ' ')" = "a.txt b/c/y.txt new?line z.txt 4 " ] || fail "folders: $(cat "$work/out")"
status 3 --json "$work/store"
grep -q 'new\\u000aline \\"\\\\\\ufffd.txt' "$work/out" || fail "JSON: $(cat "$work/out")"

# ---- damaged texts, and what looks at memory ----

mkdir -p "$work"/damaged/{marks,values,first}
marked=$((count / 10 + 1))
${CC:-cc} -std=c11 -Wall -Wextra -O2 linkcheck/test/damage.c -o "$work/damage"
mapfile -t whole < <(printf '%s\n' $tables/*.txt | grep -Ev '/(t[1-7]|s_[0-9]|r_s_)')
"$work/damage" "$work/damaged" "$count" "$seed" "${whole[@]}"
"$work/damage" "$work/damaged/marks" "$marked" "$seed" "$work"/marks/*.txt
"$work/damage" "$work/damaged/values" "$marked" "$seed" "$work"/values/*.txt
"$work/damage" "$work/damaged/first" "$marked" "$seed" "$work"/first/*.txt
"$linkcheck" --glob '*' "$work/damaged" > "$work/plain" || true
# Each text turned down has its fault found: the words come from another reading than the number.
for found in "$work/words" "$work/plain"; do
    if grep 'turned down [0-9] ([^)]*)\(, line [0-9]*\)\?$' "$found"; then fail "a fault is not found"; fi
done
measures_of "$work"/damaged/*[0-9] "$work"/damaged/{marks,values,first}/*
# What is said to be missing is, and nothing comes before it.
all=("$tables" "$work"/{marks,values,first,runs,damaged})
"$linkcheck" --json --glob '*' "${all[@]}" > "$work/json" || [ $? = 2 ] || fail "--json"
linkcheck/test/values.py < "$work/json" || fail "a missing value is not as it is said"
# What is said to be reached is, by the shortest run, and what isn't is not; and every object is as the schema says.
linkcheck/test/runs.py < "$work/json" > "$work/found" || fail "a run, a row, a condition or a conjunct is not as it is said"
cat "$work/found"
for kind in "conjunct" "not reached" "reached by no step" "reached by steps"; do
    grep -q "[0-9][0-9] $kind" "$work/found" || fail "no table with \"$kind\""
done
linkcheck/test/schema.py < "$work/json" || fail "--json is not as schema.json says"
cat linkcheck/expected/*.json | grep -v '^status' | linkcheck/test/schema.py || fail "stored objects are not as schema.json says"
# A table is accepted after a first internal step exactly if there is one, and the first is named, in words too.
linkcheck/test/first.py < "$work/json" > "$work/due_words" || fail "a first internal step is not as it is said"
{ "$linkcheck" --glob '*' "${all[@]}" || [ $? = 2 ] || fail "${all[*]}"; } | grep '  accepted' > "$work/accepted"
cmp "$work/due_words" "$work/accepted" || fail "a first internal step is told otherwise in words"
[ "$(grep -c 'after a first internal step' "$work/accepted")" -ge 150 ] || fail "few tables with a first internal step"
# What is said to differ differs.
for found in "$work/words" "$work/plain"; do
    if sed 's/; \(reached: \|state [0-9]* is the\|the invariant holds\|no run\).*//' "$found" | grep -e "data \([0-9]*\), the specification's \1\$" \
        -e "mapped to \(([^)]*)\), the specification's to \1\$" -e "mapped to \(([^)]*)\), the specification's initial state is \1\$" \
        -e 'the state is mapped to \(([^)]*)\), .*, mapped to \1$'; then fail "nothing differs"; fi
    if sed -n 's/.*: the measure is \([0-9]*\), and \([0-9]*\) after.*/\1 \2/p' "$found" | awk '$2 < $1' | grep .; then fail "the measure falls"; fi
    if grep 'criterion 2 ' "$found" | grep -v 'not below the size'; then fail "no mapped value is outside"; fi
done
# A step that fails criterion 5 is marked.
"$linkcheck" --json --glob '*' "$work/marks" "$work/damaged/marks" > "$work/marks.json" || true
if grep '"marked":false' "$work/marks.json"; then fail "criterion 5 fails by a step that is not marked"; fi

beside "typed tables" linkcheck/test_typed.sh "$seed" "${all[@]}"

# Every look, by the command given, over a folder's tables; and at each of a few, and of odd ones that are typed.
looks() {
    local folder=$1
    shift
    set -- "$@" --glob '*'
    "$@" "$folder" > "$work/looked" 2> "$work/error" || judged $? || fail "$* $folder: $(cat "$work/error")"
    "$@" --json -j 2 "$folder" > /dev/null 2>> "$work/error" || judged $? || fail "$* --json $folder: $(cat "$work/error")"
    "$@" --typed --json "$folder" > /dev/null 2>> "$work/error" || judged $? || fail "$* --typed --json $folder: $(cat "$work/error")"
    if [ -s "$work/error" ]; then fail "$* $folder: $(cat "$work/error")"; fi
}
looks_at_each() {
    local look file
    for file in "${few[@]}"; do
        for look in "--show" "--aut impl" "--aut spec" "--aut-states impl" "--dot" "--dot --around 0" "--columns" "--mark" "--unmark" \
            "--measure" "--measure --json"; do
            look "$file" "$look" "$@"
        done
        printf '%s\n' 1 1 1 2 2 b "g 0" "g 3" "g 7" 1 s 3 99 q | "$@" --walk "$file" > /dev/null 2> "$work/error" || judged $? ||
            fail "$* --walk $file: $(cat "$work/error")"
    done
    for file in "${odd[@]}"; do
        for look in "--typed" "--typed --show" "--typed --json" "--typed --columns" "--typed --dot" "--typed --mark"; do
            look "$file" "$look" "$@"
        done
    done
}
# look FILE OPTIONS COMMAND...: one of them.
look() {
    local file=$1 asked=$2
    shift 2
    # shellcheck disable=SC2086
    "$@" $asked "$file" > /dev/null 2> "$work/error" || judged $? || fail "$* $asked $file: $(cat "$work/error")"
}
checked="no sanitizer"
if [ -n "$sanitized" ]; then
    looks "$tables" "$sanitized"
    cmp "$work/words" "$work/looked" || fail "the sanitizers' build answers otherwise"
    looks "$work/damaged" "$sanitized"
    cmp "$work/plain" "$work/looked" || fail "the sanitizers' build answers otherwise"
    few=("$tables"/P_*.txt "$tables"/[abfik]*.txt "$tables"/r{em,_mark}_*.txt "$tables"/t[1-7][1-7]*.txt "$work"/{marks,values,first,runs}/*.txt)
    few+=("$work"/damaged/{,marks/,values/,first/}?)
    odd=("$work"/{typed,places}/*.txt)
    looks_at_each "$sanitized"
    checked="the address and undefined behaviour sanitizers"
fi
# Valgrind knows what was never written, too, and takes long: all looks at a few, and three looks at many at once.
if valgrind -q --error-exitcode=99 "$linkcheck" --help > /dev/null 2>&1; then
    mkdir "$work/some"
    cp "$work"/damaged/[1-9]?? "$work/some" 2> /dev/null || cp "$work"/damaged/? "$work/some"
    cp -r "$work"/{marks,values,first,runs,typed,places} "$work/some"
    looks "$work/some" valgrind -q --error-exitcode=99 --leak-check=full "$linkcheck"
    few=("$tables/P_given.txt" "$tables/t56.txt" "$work/values/no-guard.txt" "$work/first/again.txt")
    odd=("$work"/{typed/{fails,terms,words},places/columns}.txt)
    looks_at_each valgrind -q --error-exitcode=99 --leak-check=full "$linkcheck"
    checked="$checked and valgrind"
fi
joined "typed tables" || fail "typed tables"
joined "a store and pictures" || fail "a store and pictures"
damaged=$((count + 3 * marked))
echo "linkcheck: $(wc -l < "$work/due") tables as in compare/reports.tsv, $damaged damaged texts from seed $seed, $checked: no fault"
tail -n 1 "$work/plain"
