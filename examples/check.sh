#!/bin/sh
# check.sh: holds the examples of docs/LANGUAGE.md and README.md to crates/run/out/run, and tries run at its edges.
#
#     sh examples/check.sh        from the top of the repository, after `(cd crates/run && rt run </dev/null)`
#
# (a) Each block ```pl516 NAME [TURNS SWITCHES] is the file NAME.pl516 of the data, and run prints for it the block ```text NAME,
#     which also stands in the stored output of language_examples. Each file of the data has its blocks.
# (b) run on files that cannot be read, on sources at the longest length, and with arguments that it refuses.
# Prints a line for each thing that is wrong, and at the end how many checks were made. Exit status 1 if something is wrong.
set -u

pages='docs/LANGUAGE.md README.md'
data=crates/language_examples/data
stored=crates/language_examples/stdout
run=crates/run/out/run
# These sources are too long for the page: they have a text block only.
long_sources='long names globals sector'

for needed in $pages "$stored"; do
    if [ ! -f "$needed" ]; then
        echo "examples: $needed is missing; start this from the top of the repository"
        exit 1
    fi
done
if [ ! -x "$run" ]; then
    echo "examples: $run is missing; '(cd crates/run && rt run </dev/null)' builds it"
    exit 1
fi

work=$(mktemp -d) || exit 1
trap 'rm -rf "$work"' EXIT
trap 'exit 1' HUP INT TERM
mkdir "$work/source" "$work/text" "$work/stored" "$work/edge"
checks=0
wrong=0

say_wrong() {
    wrong=$((wrong + 1))
    echo "wrong: $1"
}

# same WHAT FILE FILE: the two are equal, byte for byte.
same() {
    checks=$((checks + 1))
    cmp -s "$2" "$3" || say_wrong "$1"
}

is_long() {
    case " $long_sources " in
        *" $1 "*) return 0 ;;
    esac
    return 1
}

# The pages' blocks, each into a file of its own: source/NAME, text/NAME; `blocks` has a line KIND NAME TURNS SWITCHES for each.
# A block's end is a line of three backquotes, so no block has such a line. A fence of another kind, or without a name, is reported.
awk -v work="$work" '
    !inside && /^```/ {
        inside = 1
        kind = substr($1, 4)
        file = ""
        if (kind == "pl516" && (NF == 2 || NF == 4)) file = work "/source/" $2
        if (kind == "text" && NF == 2) file = work "/text/" $2
        if ($2 !~ /^[a-z0-9]+$/) file = ""
        if (file == "") { print "bad line " FILENAME ":" FNR; next }
        print kind, $2, (NF == 4 ? $3 : "1"), (NF == 4 ? $4 : "0000")
        printf "" > file
        next
    }
    inside && /^```$/ { inside = 0; if (file != "") close(file); next }
    inside && file != "" { print > file }
    END { if (inside) print "bad end" }
' $pages >"$work/blocks"

# The stored output, cut at its headings NAME.pl516 [TURNS SWITCHES]: stored/NAME; `headings` has the same lines as `blocks`.
awk -v work="$work" '
    /^[a-z0-9]+\.pl516( [0-9]+ [01][01][01][01])?$/ {
        if (file != "") close(file)
        name = substr($1, 1, length($1) - 6)
        file = work "/stored/" name
        print name, (NF == 3 ? $2 : "1"), (NF == 3 ? $3 : "0000")
        printf "" > file
        next
    }
    file != "" { print > file }
' "$stored" >"$work/headings"

# stored_once NAME TURNS SWITCHES: the stored output has this heading once.
stored_once() {
    checks=$((checks + 1))
    [ "$(grep -c -x "$1 $2 $3" "$work/headings")" = 1 ] || say_wrong "$1: $stored has not one heading for it with turns $2 and switches $3"
}

# example NAME SOURCE TURNS SWITCHES: run prints the text block for this source, and the stored output has it.
example() {
    "$run" "$2" "$3" "$4" >"$work/found" 2>&1 </dev/null
    same "$1: $run prints something else than the text block" "$work/found" "$work/text/$1"
    stored_once "$1" "$3" "$4"
    same "$1: $stored has something else than the text block" "$work/stored/$1" "$work/text/$1"
}

source_block() {
    same "$1: the block and $data/$1.pl516 differ" "$work/source/$1" "$data/$1.pl516"
    if [ ! -f "$work/text/$1" ]; then
        say_wrong "$1: there is no text block"
        return
    fi
    example "$1" "$work/source/$1" "$2" "$3"
}

text_block() {
    if is_long "$1"; then
        example "$1" "$data/$1.pl516" 1 0000
    elif [ ! -f "$work/source/$1" ]; then
        say_wrong "$1: there is no pl516 block"
    fi
}

while read -r kind name turns switches; do
    checks=$((checks + 1))
    case "$kind" in
        pl516) source_block "$name" "$turns" "$switches" ;;
        text) text_block "$name" ;;
        *) say_wrong "$pages have a fence that is no block, or one that does not end: $name $turns" ;;
    esac
done <"$work/blocks"

# No name has two blocks of one kind, and no heading is without a block.
for twice in $(awk '{ print $1 "-" $2 }' "$work/blocks" | sort | uniq -d); do
    say_wrong "$twice: two blocks of this name"
done
while read -r name rest; do
    checks=$((checks + 1))
    [ -f "$work/text/$name" ] || say_wrong "$name: $stored has it, and no page has a text block for it"
done <"$work/headings"

for file in "$data"/*; do
    name=${file##*/}
    name=${name%.pl516}
    checks=$((checks + 1))
    if is_long "$name"; then
        [ -f "$work/text/$name" ] || say_wrong "$file has no text block"
    else
        [ -f "$work/source/$name" ] || say_wrong "$file has no pl516 block"
    fi
    checks=$((checks + 1))
    # An empty answer of tail is a newline that the shell took off.
    [ -z "$(tail -c 1 "$file")" ] || say_wrong "$file does not end with a newline"
done

# (b) The edges. `found` is what run printed, `wanted` what it should.
edge=$work/edge
usage='Usage: run [FILE or -] [TURNS] [SWITCHES]'
unreadable='The input cannot be read.'

# wanted LINE...: the lines that are to come.
wanted() {
    printf '%s\n' "$@" >"$work/wanted"
}

# at_edge WHAT: what was found is what was wanted.
at_edge() {
    same "$1: $run prints: $(head -n 1 "$work/found")" "$work/found" "$work/wanted"
}

# padded SIZE: the small program, filled up with blanks to so many bytes.
small='.BEGIN X = 5 .END'
padded() {
    awk -v small="$small" -v size="$1" 'BEGIN { print small; for (n = length(small) + 1; n < size; n++) printf " " }' >"$edge/padded"
    checks=$((checks + 1))
    [ "$(wc -c <"$edge/padded" | tr -d ' ')" = "$1" ] || say_wrong "the source of $1 bytes could not be made"
}

printf '%s\n' "$small" >"$edge/small"

wanted "The file \"$edge/missing\" cannot be opened."
"$run" "$edge/missing" >"$work/found" 2>&1 </dev/null
at_edge 'a missing file'

# A name with a byte that is no UTF-8: the byte is shown as a `?`.
latin=$(printf 'caf\351')
printf '%s\n' "$small" >"$edge/$latin"
wanted "The file \"$edge/caf?\" cannot be opened."
"$run" "$edge/$latin" >"$work/found" 2>&1 </dev/null
at_edge 'a file whose name is not UTF-8'

wanted "$unreadable"
"$run" "$edge" >"$work/found" 2>&1 </dev/null
at_edge 'a directory'
"$run" - >"$work/found" 2>&1 <&-
at_edge 'closed standard input, by -'
"$run" >"$work/found" 2>&1 <&-
at_edge 'closed standard input, no arguments'

wanted 'line 1, column 1: 6, unexpected here, or the source ends too soon; a missing ;, .ELSE or .END shows at what follows it' '' '^'
"$run" - >"$work/found" 2>&1 </dev/null
at_edge 'empty standard input'

wanted 'halted after 3 steps' 'registers: A = 5, B = 0, C = 0, X = 5'
padded 8192
"$run" "$edge/padded" >"$work/found" 2>&1 </dev/null
at_edge 'a source of 8192 bytes'
"$run" - <"$edge/padded" >"$work/found" 2>&1
at_edge 'a source of 8192 bytes on standard input'
"$run" - <"$edge/small" >"$work/found" 2>&1
at_edge 'a program on standard input, by -'
"$run" <"$edge/small" >"$work/found" 2>&1
at_edge 'a program on standard input, no arguments'
"$run" - 1000000 1111 <"$edge/small" >"$work/found" 2>&1
at_edge 'a program on standard input, with the most turns and all switches'

wanted 'line 1, column 1: 3, source of more than 8,192 bytes' "$small" '^'
padded 8193
"$run" "$edge/padded" >"$work/found" 2>&1 </dev/null
at_edge 'a source of 8193 bytes'
padded 100000
"$run" "$edge/padded" >"$work/found" 2>&1 </dev/null
at_edge 'a source of 100000 bytes'
"$run" - <"$edge/padded" >"$work/found" 2>&1
at_edge 'a source of 100000 bytes on standard input'

# refused ARGUMENT...: run answers with its usage.
refused() {
    "$run" "$@" >"$work/found" 2>&1 </dev/null
    at_edge "arguments: $*"
}

wanted "$usage"
refused "$edge/small" 1 0000 extra
refused --help
refused -x 1
wanted 'TURNS must be a number from 1 to 1000000.'
for turns in 0 1000001 1x -1 '' 99999999999999999999999; do
    refused "$edge/small" "$turns"
done
wanted 'SWITCHES must be four digits, each 0 or 1.'
for switches in 002 0002 00000 abcd ''; do
    refused "$edge/small" 1 "$switches"
done
wanted 'The file "" cannot be opened.'
refused ''
wanted 'The file cannot be opened: its name is too long.'
refused "$(awk 'BEGIN { for (n = 0; n < 5000; n++) printf "a" }')"

# A byte without a shape of its own is a `?`: a tab, 127, 200, a carriage return. An empty program is one step; an array may have no elements, or fill its rows.
four='4, unknown byte or keyword (lower-case letters, tabs and carriage returns are unknown bytes)'
printf '.BEGIN\tX\177\310\n' >"$edge/bytes"
wanted "line 1, column 7: $four" '.BEGIN?X??' '      ^'
"$run" "$edge/bytes" >"$work/found" 2>&1 </dev/null
at_edge 'bytes that are no characters'
printf '.BEGIN\n X = 1;\r\n.END\n' >"$edge/bytes"
wanted "line 2, column 8: $four" ' X = 1;?' '       ^'
"$run" "$edge/bytes" >"$work/found" 2>&1 </dev/null
at_edge 'a carriage return'
printf '.BEGIN .END' >"$edge/bytes"
wanted 'halted after 1 step' 'registers: A = 0, B = 0, C = 0, X = 0'
"$run" "$edge/bytes" >"$work/found" 2>&1 </dev/null
at_edge 'an empty program'
printf '.BEGIN .ARRAY T[0], U[10], V[11](-1); .END' >"$edge/bytes"
wanted 'halted after 1 step' 'registers: A = 0, B = 0, C = 0, X = 0' 'T has no elements' 'U[-10] = 0, 0, 0, 0, 0, 0, 0, 0, 0, 0' 'V[-11] = -1, 0, 0, 0, 0, 0, 0, 0, 0, 0' 'V[-1] = 0'
"$run" "$edge/bytes" >"$work/found" 2>&1 </dev/null
at_edge 'arrays of 0, 10 and 11 elements'

echo "examples: $checks checks, $wrong wrong"
[ "$wrong" -eq 0 ]
