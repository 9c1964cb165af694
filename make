#!/usr/bin/env bash
# make SEED M RULE U S K G: writes the system file that seven numbers make, by the proved program of crates/make.
me='make'
usage='usage: make SEED M RULE U S K G   writes the file of a trial system to standard output, the same one for everybody
SEED starts the generator; M engines have time U and memory S each, under RULE 0 or 1; there are K types, and of each at most G instances.
Each number is 1 to 20 decimal digits.
Status 0: the file was written.
Status 1: an argument is no such number or the file was not written; a line on standard error says why.
Status 2: there is no such system, and nothing was written; the line on standard error is the refusal, as "refused 39".'

root=$(dirname "$(readlink -f "${BASH_SOURCE[0]}")")
. "$root/tools/run" || exit 1

begin 7 "give seven numbers: make SEED M RULE U S K G" "$@"
for number; do
    [[ $number =~ ^[0-9]{1,20}$ ]] || fail "no number of 1 to 20 decimal digits: $number"
done
ready make

# What the program writes, each byte as two digits: a variable holds no byte 0. It is held here and not in a file: no disk can cut it.
hex=$(printf '%s\n' "$*" | "$program" 2>/dev/null | od -An -v -t x1) || fail "the program failed: $program"
# shellcheck disable=SC2206
bytes=($hex)
printf -v text '\\x%s' ${bytes[@]+"${bytes[@]}"}

case ${bytes[0]-} in
    01) # a file: 13 bytes for the platform, and 13 for each type
        [ ${#bytes[@]} -eq $((13 + 13 * 10#$6)) ] || fail "the program wrote no file: $program"
        give "the file" '%b' "$text"
        ;;
    *)
        line=$(printf '%b' "$text")
        is_refusal "$line" || fail "the program wrote no file: $program"
        printf '%s\n' "$line" >&2
        exit 2
        ;;
esac
