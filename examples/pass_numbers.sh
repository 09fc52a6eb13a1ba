#!/bin/sh
# Uses up the numbers of occurrences and of instances in a journal that was put back from an older copy, up to the greatest
# that was used before (docs/OPERATING.md, "Restore"): again and again an instance is created, asked to be instantiated, and
# deleted. There is no orchestrator and no infrastructure, so the operation gets no grant and ends ROLLED_BACK, and none
# reaches an adapter. No manager may run on the journal. Prints the numbers that were used last.
#
#     pass_numbers.sh VNFM JOURNAL GREATEST [VNFDID FLAVOUR]
vnfm=$1 journal=$2 greatest=$3 vnfd=${4:-vnfd-1} flavour=${5:-simple}
base=/vnflcm/v1/vnf_instances

# Asks on one connection, makes so many rounds, and prints the answer.
ask() { # ROUNDS METHOD PATH BODY
    printf '%s %s HTTP/1.1\r\nContent-Length: %d\r\nConnection: close\r\n\r\n%s' "$2" "$3" "${#4}" "$4" |
        "$vnfm" once --journal "$journal" --rounds "$1" 2>"$errors" | tr -d '\r'
}

# What an answer has to be, or all ends.
wanted() { # STATUS ANSWER
    case $2 in
    "HTTP/1.1 $1 "*) return ;;
    esac
    printf '%s\n' "$2" >&2
    cat "$errors" >&2
    exit 1
}

location() {
    printf '%s\n' "$1" | sed -n 's/^Location: //p'
}

# The number in an identifier at the end of a path: it ends in the number with 2^63 added, in hexadecimal.
number_of() {
    digits=$(printf '%s' "${1##*/}" | tr -d - | cut -c18-)
    echo $((0x$digits))
}

errors=$(mktemp) || exit 1
trap 'rm -f "$errors"' EXIT
occurrence=0 instance=0
while [ "$occurrence" -lt "$greatest" ] || [ "$instance" -lt "$greatest" ]; do
    answer=$(ask 1 POST "$base" "{\"vnfdId\":\"$vnfd\"}")
    wanted 201 "$answer"
    made=$(location "$answer")
    # Five rounds record that there was no grant, and the sixth that the operation is ROLLED_BACK.
    answer=$(ask 6 POST "$made/instantiate" "{\"flavourId\":\"$flavour\"}")
    wanted 202 "$answer"
    wanted 204 "$(ask 1 DELETE "$made" '')"
    occurrence=$(number_of "$(location "$answer")") instance=$(number_of "$made")
done
echo "occurrence $occurrence, instance $instance"
