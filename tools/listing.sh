#!/usr/bin/env bash
# listing.sh [FILE|-]: proves and builds the listing, and runs it on input lines.
#
# FILE has an instruction a line (address, kind, rd, rs1, rs2, imm), as tools/firmware_lines.py makes them of an ELF file or an image. `-`, or
# no FILE where standard input is not a terminal, takes the lines from standard input. With no FILE at a terminal the sample of firmware is
# listed (samples/firmware.txt).
#
# The lines are read, and looked at, before anything is proved. What the prover says goes to crates/listing/out/listing.log; a line on standard
# error counts the crates that are proved, those that have not changed since among them. The listing goes to standard output, and at the end
# standard error has the number of lines that were refused, with the meaning of each number (tools/refusals.txt).
#
# Exit status: 0 every line was accepted; 1 a line was refused; 2 the input can't be read, the proof failed, or the output was cut. That it was
# cut is seen in two ways. The listing writes into a pipe whose reader's exit status says whether all that it read was written, to standard
# output too. And every input line has exactly one line in the output that ends its part: a regular or a syscall edge, the second of two branch
# edges, a dispatch, a bad line or a refusal; there must be as many of these as there are input lines.
set -u
name=${0##*/}
root=$(cd "$(dirname "${BASH_SOURCE[0]}")/.." && pwd) || exit 2
log=crates/listing/out/listing.log
program=crates/listing/out/listing

say() { printf '%s: %s\n' "$name" "$*" >&2; }
fail() {
    say "$@"
    exit 2
}

help() { # The comment at the top of this file is the help.
    local text
    text=$(sed -n '2,/^[^#]/s/^# \{0,1\}//p' "$root/tools/listing.sh")
    { printf '%s\n' "$text"; } 2>/dev/null || fail "the output can't be written"
}

arguments() {
    case $#:${1:-} in
    1:-h | 1:--help)
        help
        exit 0
        ;;
    0: | 1:-) given=${1:-} ;;
    1:) fail "an empty name is no file" ;;
    1:-*) fail "$1 is no option (--help says how it is called)" ;;
    1:*) given=$1 ;;
    *) fail "it takes one file, and $# were given (--help says how it is called)" ;;
    esac
    if [ -z "$given" ]; then
        if [ -t 0 ]; then given=$root/samples/firmware.txt; else given=-; fi
    fi
}

# The input is copied, so that what is listed is what was looked at, however long the proof takes.
copy_input() {
    local reason
    if [ "$given" = - ]; then
        given="standard input"
        { : 3<&0; } 2>/dev/null || fail "$given is closed"
        reason=$(cat 2>&1 >"$work/input") || fail "$given can't be read: ${reason##*: }"
    else
        [ -e "$given" ] || fail "$given: there is no such file"
        ! [ -d "$given" ] || fail "$given is a directory: it takes a file of input lines"
        reason=$(cat 2>&1 <"$given" >"$work/input") || fail "$given can't be read: ${reason##*: }"
    fi
}

look_at_input() {
    if [ "$(head -c 4 "$work/input" | od -An -tx1 | tr -d ' \n')" = 7f454c46 ]; then
        fail "$given is an ELF file: tools/firmware_lines.py makes input lines of it"
    fi
    lines=$(wc -l <"$work/input")
    if [ -s "$work/input" ] && [ "$(tail -c 1 "$work/input" | wc -l)" -eq 0 ]; then
        lines=$((lines + 1)) # the last newline may be missing
    fi
    local returns
    returns=$(LC_ALL=C grep -a -c $'\r$' "$work/input")
    if [ "$returns" -ne 0 ]; then
        say "$given: $returns of $lines lines end with CR LF, which the listing refuses with 0 (tr -d '\\r' takes the CR off)"
    fi
}

# How many crates of crates.txt the listing needs, itself among them.
crates_needed() {
    awk '
        function visit(n,    deps, k, m) {
            if (n in seen || !(n in needs)) return
            seen[n] = 1
            count++
            m = split(needs[n], deps, " ")
            for (k = 1; k <= m; k++) visit(deps[k])
        }
        { sub(/#.*/, ""); i = index($0, ":") }
        i { n = substr($0, 1, i - 1); gsub(/[ \t]/, "", n); needs[n] = substr($0, i + 1) }
        END { visit("listing"); print count + 0 }' crates.txt
}

# Keeps what the prover says in the log and counts the crates that it proves now, at a terminal as they come. Gives their number.
count_crates() { # NEEDED
    local proved=0 line
    while IFS= read -r line; do
        { printf '%s\n' "$line" >&3; } 2>/dev/null || return 1
        if [[ $line =~ ^logic=proved\  ]]; then proved=$((proved + 1)); fi
        if [ -t 2 ]; then printf '\r%s: %s of %s crates proved' "$name" "$proved" "$1" >&2; fi
    done
    echo "$proved"
}

# Proves and builds the listing. `rt run` runs it too, here on no lines, which gives no output.
prove() {
    command -v rt >/dev/null || fail "rt, the Rattle kit's command, is not on the path"
    { mkdir -p "${log%/*}" && : >"$log"; } 2>/dev/null || fail "$root/$log can't be written"
    local needed statuses
    needed=$(crates_needed)
    (cd crates/listing && exec rt run) 2>&1 </dev/null | count_crates "$needed" 3>"$log" >"$work/proved"
    statuses=("${PIPESTATUS[@]}")
    if [ -t 2 ]; then printf '\r' >&2; fi
    [ "${statuses[1]}" -eq 0 ] || fail "$root/$log can't be written"
    if [ "${statuses[0]}" -ne 0 ]; then
        say "$(cat "$work/proved") of $needed crates proved now"
        fail "the listing is not proved: $root/$log has what the prover said"
    fi
    [ -x "$program" ] || fail "the prover made no $program: $root/$log has what it said"
    say "$needed of $needed crates proved"
}

list() {
    "$program" <"$work/input" 2>"$work/said" | tee "$work/output" 2>/dev/null
    local statuses=("${PIPESTATUS[@]}")
    [ "${statuses[1]}" -eq 0 ] || fail "the output is cut: it can't be written whole"
    [ "${statuses[0]}" -eq 0 ] || fail "the output is cut: the listing ended with status ${statuses[0]}$(sed '1s/^/: /;q' "$work/said")"
    if [ -s "$work/output" ] && [ "$(tail -c 1 "$work/output" | wc -l)" -eq 0 ]; then
        fail "the output is cut: its last line has no end"
    fi
}

# Counts what the output answers, and the refusals by number. An edge is `; in TO from FROM KIND CONDITION`, a refusal `; refused LINE NUMBER`.
account() {
    awk -v lines="$lines" '
        FNR == NR { at = index($0, " "); number = substr($0, 1, at - 1); order[++numbers] = number; words[number] = substr($0, at + 1); next }
        $2 == "in" && $6 == "branch" { branches++ }
        $2 == "in" && ($6 == "regular" || $6 == "syscall") || $2 == "dyn" || $2 == "bad" { answered++ }
        $2 == "refused" {
            answered++
            refused++
            with[$4]++
            if (!($4 in words)) { order[++numbers] = $4; words[$4] = "not a number of the listing" }
        }
        END {
            answered += branches / 2
            if (answered != lines) {
                print (answered < lines ? "the output is cut" : "the output is not that of the input") ": it answers " int(answered) " of " lines " lines"
                exit 2
            }
            if (!refused) {
                print "none of " lines " lines was refused"
                exit 0
            }
            for (k = 1; k <= numbers; k++)
                if (with[order[k]]) parts = parts (parts ? ", " : "") with[order[k]] " with " order[k] " (" words[order[k]] ")"
            print refused " of " lines " lines " (refused == 1 ? "was" : "were") " refused: " parts
            exit 1
        }' tools/refusals.txt "$work/output"
}

{ : 3>&1; } 2>/dev/null || fail "standard output is closed"
arguments "$@"
work=$(mktemp -d 2>/dev/null) || fail "no folder for a copy of the input can be made"
trap 'rm -rf "$work"' EXIT
trap 'exit 2' HUP INT TERM
copy_input
look_at_input
cd "$root" || fail "$root can't be entered"
for file in tools/refusals.txt crates.txt; do
    [ -r "$file" ] || fail "$root/$file is missing"
done
prove
list
counted=$(account)
status=$?
say "$counted"
exit "$status"
