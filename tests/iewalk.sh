#!/usr/bin/env bash
# Runs iewalk on whole messages and compares what it prints and how it ends.
# A case in tests/iewalk/cases.txt: a line '# what it shows', the message in hexadecimal, the expected lines, a blank line.
set -ef
cd "$(dirname "$0")/.."
program=crates/iewalk/out/iewalk
work=$(mktemp -d)
trap 'rm -rf "$work"' EXIT
# rt ci leaves no program: prove and build it here, as far as that has not been done
(cd crates/iewalk && rt run < stdin > "$work/built" 2>&1) || { cat "$work/built"; exit 1; }
cases=0

# octets WORD.. : the octets of hexadecimal words, of which 'AA*5' stands for five
octets() {
    local word count text=
    for word in "$@"; do
        count=1
        case $word in *'*'*) count=${word#*\*}; word=${word%\**} ;; esac
        text+=$(printf "$word%.0s" $(seq "$count"))
    done
    printf '%b' "$(sed 's/../\\x&/g' <<< "$text")"
}

check() {
    "$program" < "$work/message" > "$work/output"
    if ! diff "$work/expected" "$work/output" > "$work/difference"; then
        echo "iewalk, $title: expected (<) and printed (>) differ"
        cat "$work/difference"
        exit 1
    fi
    cases=$((cases + 1))
}

state=title
while IFS= read -r line || [ -n "$line" ]; do
    case $state in
    title)
        [ -n "$line" ] || continue
        title=${line#\# }
        state=message ;;
    message)
        octets $line > "$work/message"
        : > "$work/expected"
        state=output ;;
    output)
        if [ -n "$line" ]; then
            printf '%s\n' "$line" >> "$work/expected"
        else
            check
            state=title
        fi ;;
    esac
done < tests/iewalk/cases.txt
[ $state = title ] || check

# Every octet as an IEI, each with the least that its layout takes.
title='every octet as an IEI'
head=7E0067020000
message=$head
place=6
: > "$work/expected"
for octet in $(seq 0 255); do
    iei=$(printf '%02X' "$octet")
    kind=skippable
    if [ "$octet" -ge 128 ]; then rest=; elif [ "$octet" -ge 112 ]; then rest=0000; else rest=00; fi
    if [ "$octet" -lt 16 ] || [ "$octet" -eq 126 ] || [ "$octet" -eq 127 ]; then kind=demanding; fi
    case $iei in
    12) kind='known entry=0' ;;
    59) kind='known entry=1' ;;
    8?) kind='known entry=2' ;;
    22) kind='known entry=3' ;;
    25) kind='known entry=4' ;;
    24) kind='known entry=5' ;;
    A?) kind='known entry=6' ;;
    F?) kind='known entry=7' ;;
    esac
    size=$((1 + ${#rest} / 2))
    echo "$kind iei=$iei at=$place size=$size" >> "$work/expected"
    message+=$iei$rest
    place=$((place + size))
done
echo "end ies=256 octets=$((place - 6))" >> "$work/expected"
octets "$message" > "$work/message"
check

# Every length up to the longest, in steps; the request type's octet fills the message.
for length in $(seq 6 7 4096) 4095 4096; do
    title="$length octets"
    { octets "$head"; head -c $((length - 6)) /dev/zero | tr '\0' '\201'; } > "$work/message"
    "$program" < "$work/message" | tail -n 1 > "$work/last"
    if [ "$(cat "$work/last")" != "end ies=$((length - 6)) octets=$((length - 6))" ]; then
        echo "iewalk, $title: ended with $(cat "$work/last")"
        exit 1
    fi
    cases=$((cases + 1))
done

# An input or output error ends with status 1 and a message on standard error.
fails() {
    if "$@" 2> "$work/error"; then echo "$title: it did not fail"; exit 1; fi
    [ -s "$work/error" ] || { echo "$title: no message on standard error"; exit 1; }
    cases=$((cases + 1))
}
title='input is a folder'
fails sh -c "$program < / > $work/output"
title='output is full'
fails sh -c "$program < examples/truncated.bin > /dev/full"

echo "iewalk: $cases cases as expected"
