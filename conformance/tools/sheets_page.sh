#!/usr/bin/env bash
# The commands of docs/SHEETS.md, run as they stand there with a program that prints exam sheets: each block has to print what the page
# shows behind it.
#
#     tools/sheets_page.sh PROGRAM [PAGE]
#
# A block ```sh is run, all of them in one bash and one empty folder, in their order; what it prints is the block ```text that follows, with
# at most a line of prose between, or nothing. A block ```sh print goes to a printer, and isn't run.
set -euo pipefail
program=$(realpath "${1:?the path of a program that behaves like exam-sheet}")
page=$(realpath "${2:-$(dirname "$0")/../../docs/SHEETS.md}")
test -x "$program" || { echo "$program can't be run" >&2; exit 2; }
work=$(mktemp -d)
trap 'rm -rf "$work"' EXIT
mkdir "$work/bin" "$work/folder" "$work/blocks"

failed() {
    echo "$page: $*" >&2
    exit 1
}

# A wrapper, not a link: a script that looks for its own folder finds it.
printf '#!/usr/bin/env bash\nexec %q "$@"\n' "$program" > "$work/bin/exam-sheet"
chmod +x "$work/bin/exam-sheet"

# Block n as n.sh, what it has to print as n.text, its line of the page as n.line; and the number of blocks.
awk -v to="$work/blocks/" '
    function wrong(what) { print FILENAME ": line " FNR ": " what > "/dev/stderr"; bad = 1; exit 1 }
    inside && $0 == "```" { close(file); inside = ""; since = 0; prose = 0; next }
    inside { if (file) print > file; next }
    $0 == "```sh" {
        inside = "sh"; n++; file = to n ".sh"; shown = 0
        printf "" > file
        printf "" > (to n ".text"); close(to n ".text")
        print FNR > (to n ".line"); close(to n ".line")
        next
    }
    $0 == "```sh print" { inside = "print"; file = ""; shown = 1; next }
    $0 == "```text" {
        if (!n || shown || since > 3 || prose > 1) wrong("a block ```text without its block ```sh")
        inside = "text"; file = to n ".text"; shown = 1; texts++
        printf "" > file
        next
    }
    /^```/ { wrong("a block that is neither ```sh nor ```text") }
    { since++; if ($0 != "") prose++ }
    END {
        if (bad) exit 1
        if (inside) wrong("the last block has no end")
        print n + 0, texts + 0
    }' "$page" > "$work/count"
read -r count texts < "$work/count"
[ "$count" -gt 0 ] && [ "$texts" -gt 0 ] || failed "no blocks of commands, or none that print"

for ((n = 1; n <= count; n++)); do
    printf 'echo %d > %q\n' "$n" "$work/at"
    printf '. %q > %q 2> %q\n' "$work/blocks/$n.sh" "$work/blocks/$n.out" "$work/blocks/$n.said"
done > "$work/all"
printf 'echo end > %q\n' "$work/at" >> "$work/all"

status=0
(cd "$work/folder" && PATH=$work/bin:$PATH exec bash -euo pipefail "$work/all" < /dev/null) || status=$?
at=$(< "$work/at")
differing=0
for ((n = 1; n <= count; n++)); do
    here="block $n (line $(< "$work/blocks/$n.line"))"
    if [ "$at" = "$n" ]; then
        tail -n 20 "$work/blocks/$n.said" "$work/blocks/$n.out" >&2
        failed "$here failed, status $status"
    fi
    if ! diff -u --label "the page" --label "printed" "$work/blocks/$n.text" "$work/blocks/$n.out" >&2; then
        echo "$page: $here prints something else" >&2
        differing=$((differing + 1))
    fi
done
[ "$status" -eq 0 ] && [ "$at" = end ] || failed "the commands failed behind the last block, status $status"
[ "$differing" -eq 0 ] || failed "$differing of $count blocks differ"
echo "${2:-docs/SHEETS.md}: $count blocks of commands print what the page shows"
