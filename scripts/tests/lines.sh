#!/usr/bin/env bash
# Counts the lines of the sources of tests: the crates of rows, examples and builders whole, and of other crates their files of tests and modules of tests (from `mod tests {` on).
# Usage: scripts/tests/lines.sh     a line for each crate and one for all; the status is 1 where all are more than MOST (12,000)
set -u
cd "$(dirname "${BASH_SOURCE[0]}")/../../crates" || exit 2
whole='^(tests_[a-z_]*|link_examples|link_runs|elf_bytes)$'
all=0
for crate in *; do
    [ -d "$crate/src" ] || continue
    lines=0
    while IFS= read -r file; do
        if [[ $crate =~ $whole || $file == */src/tests.rt || $file == */src/tests/* ]]; then
            count=$(wc -l < "$file")
        else
            # (a module of tests within another file stands at its end)
            count=$(awk '/^mod tests \{|^mod .*tests \{/ { on = 1 } on { n++ } END { print n + 0 }' "$file")
        fi
        lines=$((lines + count))
    done < <(find "$crate/src" -name '*.rt' | sort)
    [ $lines = 0 ] || printf '%6d %s\n' $lines "$crate"
    all=$((all + lines))
done
echo "tests: $all lines in all, of at most ${MOST:-12000}"
[ $all -le "${MOST:-12000}" ]
