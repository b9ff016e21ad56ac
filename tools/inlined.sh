#!/bin/sh
# Fails when the front functions of the reader of terms, term_fold::value and term_fold::formula, are no longer put into the evaluator's, or
# these into their callers: then each leaf of a term costs a call, and evaluation takes up to half as long again. Run it after a change of
# crates/term_fold or crates/eval, in the repository's root.
set -eu
cd "$(dirname "$0")/.."
tools/library.sh eval_c
names=$(nm target/staticlib/libeval_c.a | awk '{ print $NF }')
bad=0
for front in value formula; do
    # A function of term_fold has the fold that it is compiled for behind its name.
    for name in "eval::$front" "term_fold::$front"; do
        if echo "$names" | grep -Eqx "$name(::<.*>)?"; then
            echo "inlined: $name is a function of its own: it is too large now, or calls itself"
            bad=1
        fi
    done
    if ! echo "$names" | grep -Eqx "term_fold::${front}_by_mark::<.*>"; then
        echo "inlined: term_fold::${front}_by_mark is gone: it no longer calls itself, and was put into term_fold::$front"
        bad=1
    fi
done
[ "$bad" = 0 ] && echo "inlined: ok"
exit "$bad"
