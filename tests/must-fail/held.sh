#!/usr/bin/env bash
# Copies the output of `rt ci`, and checks why each must-fail edit is refused, as far as rt says it. An edit does not hold, and counts as
# failed, if
#
# - it is a BAD EDIT: it cannot be applied or read, so nothing was tried. `rt ci` passes all the same;
# - it is refused only because a proof file names what the edit took away, or the reason that rt gives is that something waits for such a
#   proof: then the proof was written for another program;
# - it is refused only by a limit of the prover, which then gives no verdict.
#
# rt keeps no log of an edit's check. In which of its places an edit is refused is seen by places.py.
#
# The last line is still 'N passed, M failed'. `selftest.sh` has the lines that are read here.
set -euo pipefail

last='' is_ok='' told=0 lost=0 bad=0 refused=0
lose() { echo "NOT HELD: $1"; lost=$((lost + 1)); }

while IFS= read -r line; do
    [[ $line =~ ^[0-9]+\ passed,\ [0-9]+\ failed$ ]] && { last=$line; continue; }
    printf '%s\n' "$line"
    if [[ $line =~ ^rt:\ must-fail\ ([^:]+):\ refused,\ as\ it\ must\ be(.*)$ ]]; then
        refused=$((refused + 1))
        case ${BASH_REMATCH[2]} in
        ' (only because '* | *' error: '*' declaration'*' that depend'*) lose "${BASH_REMATCH[1]}: only a proof file does not fit" ;;
        ' (only by a limit '*) lose "${BASH_REMATCH[1]}: the prover gave no verdict" ;;
        esac
    elif [[ $line =~ ^rt:\ (must-fail\ )?([^:]+):\ BAD\ EDIT ]]; then
        echo "NOT HELD: ${BASH_REMATCH[2]}: a bad edit"
        bad=$((bad + 1))
    elif [[ $line =~ ^rt:\ ok ]]; then
        is_ok=yes
        if [[ $line =~ ,\ ([0-9]+)\ bad ]]; then told=${BASH_REMATCH[1]}; fi
    fi
done

# rt counts the bad edits too. Where it says more of them, or passes without its line 'rt: ok', its output is not what is read here.
if [ "$told" -gt "$bad" ]; then
    echo "NOT HELD: rt says $told bad edits"
    bad=$told
fi
if [[ $last == *', 0 failed' && -z $is_ok ]]; then
    echo "NOT HELD: rt passes, and does not say 'rt: ok'"
    bad=$((bad + 1))
fi
echo "held: $((refused - lost)) must-fail edits hold, $((lost + bad)) do not"
if [ -n "$last" ]; then
    read -r passed _ failed _ <<<"$last"
    echo "$((passed - lost)) passed, $((failed + lost + bad)) failed"
fi
[ $((lost + bad)) = 0 ]
