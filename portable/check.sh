#!/bin/sh
# Runs the worked examples with $PROGRAM, under $EMULATOR where that is given. The last line is 'N passed, M failed'.
room=$(mktemp -d) && cd "$room" || exit 1
trap 'cd / && rm -rf "$room"' EXIT
passed=0 failed=0

pocsag() { $EMULATOR "$PROGRAM" "$@"; }

# The bytes of a file in hexadecimal.
hex() { od -An -v -tx1 "$1" | tr -d ' \n'; }

# So many times a text.
repeat() { awk -v n="$1" -v text="$2" 'BEGIN { while (n-- > 0) printf "%s", text }'; }

# A page file of these records.
pages() { { echo address,kind,message && printf '%s\n' "$@"; } > p.csv; }

# Runs the program: what is tried, the status, what is printed on both streams, and then the program's words.
try() {
    name=$1 status=$2 printed=$3
    shift 3
    told=$(pocsag "$@" 2>&1 < input)
    got=$?
    same "$name" "$status: $printed" "$got: $told"
}

same() {
    if [ "$2" = "$3" ]; then
        passed=$((passed + 1))
    else
        failed=$((failed + 1))
        printf 'FAILED %s\nwanted: %s\nfound: %s\n' "$1" "$2" "$3"
    fi
}

: > input
head=$(repeat 72 aa)7cd215d8 message=c44447b9
pages 0,numeric,"$(repeat 25 1)" 3,numeric,"$(repeat 45 1)"
try "two numeric pages" 0 'pages 2
batches 1
verified' plan p.csv t c --verify
same "their transmission" "${head}00000000$(repeat 5 $message)00000000$(repeat 9 $message)" "$(hex t)"
try "with a closed end" 0 'pages 2
batches 2' plan p.csv t c --end closed --keep
printf 'PCB2\001\000\000\000\002\004\001\000\377\377' > c
try "a certificate of that" 0 'at least 2 batches with a closed end' check p.csv c

pages 0,numeric,"$(repeat 75 1)" 3,numeric,"$(repeat 75 1)"
try "loops apart" 0 'pages 2
codewords 32
in_order 3
batches 3
idles 16
bits 2208
airtime_ms 1840' report p.csv --rate 1200
printf 'PCB1\000\000\000\003\002\000\001\060\000\002\000\000\001\000\200\000' > c
try "a certificate" 0 'at least 3 batches' check p.csv c
printf 'PCB1\000\000\000\003\002\000\001\060\000\002\000\000\001\000\100\000' > c
try "one that shows nothing" 1 'not shown' check p.csv c
try "a limit" 1 'pocsag: search limit reached: at least 2 batches, 3 would do' plan p.csv t c --limit 2

pages 8,tone0,
{ printf 'PCB1\000\000\000\001'; for _ in $(repeat 299 'x '); do printf '\001\000\000\001'; done; repeat 300 "$(printf '\003')"; } > c
try "the deepest certificate" 1 'not shown' check p.csv c
pages 8,tone0, 0000008,tone1,
try "one address twice" 1 'pocsag: record 2: the address is already there' plan p.csv t c
try "a file that is not there" 3 'pocsag: cannot read or open a file' decode none

printf '%s\n' add,5,tone0, add,13,tone0, add,21,tone0, plan,t,c cancel,13 plan,t,c add,8,tone4, > input
try "an open round" 0 'ok 1
ok 2
ok 3
batches 2
ok 2
batches 1
refused: unknown kind' open
: > input
try "its pages" 0 'address,kind,message
5,tone0,
21,tone0,' decode t
dd if=t of=cut bs=72 count=1 2> /dev/null
try "no batch" 1 'pocsag: the transmission has no batch' decode cut
dd if=t of=cut bs=139 count=1 2> /dev/null
try "a part of a batch" 1 'pocsag: the transmission is cut short' decode cut
try "a pager" 0 'address,kind,message
5,tone0,' hear 5 t
same "a second of sound and more" "$((44 + 2 * 48000 * (576 + 2 * 544) / 1200))" "$(($(pocsag wav t --rate 1200 | wc -c)))"

{ echo address,kind,message && awk 'BEGIN { for (k = 0; k < 20000; k++) print k ",tone0," }'; } > p.csv
try "the largest round" 0 'pages 20000
batches 1250' plan p.csv t c
echo "$passed passed, $failed failed"
[ "$failed" = 0 ]
