#!/bin/sh
# Makes rex2_list.txt: encodings by llvm-mc for all 32 general registers of APX.
#
# Usage: make_rex2_list.sh >rex2_list.txt     (LLVM_MC names another llvm-mc)
#
# A line is 17 bytes in lower-case hex: operation (0 mov, 1 add, 2 sub, 3 cmp,
# 4 lea), source (0 slot, 1 immediate, 2 address), width (1 = 64 bits, 0 = 32),
# register 0..31, length, then the encoding zero-padded to 12 bytes. The
# displacement or immediate is 0x11223344 (287454020).
#
# Forms: registers 16..31 as they come (REX2); registers 0..15 as they come
# (REX, or no prefix) and with {rex2}; 32-bit registers 0..7 also with {rex}.
#
# The machine has only C7 and 81 for immediates. Where llvm-mc picks a short
# form (05, 2D, 3D, B8+r) the bytes are taken from its encoding of a neighbour,
# with one prefix bit cleared, as said in step 3. These lines come last.
set -eu
export LC_ALL=C

mc=${LLVM_MC:-llvm-mc-19}
mc_options='-triple=x86_64 -mattr=+egpr -show-encoding'
dir=$(mktemp -d)
trap 'rm -rf "$dir"' EXIT

fail() {
    echo "make_rex2_list.sh: $*" >&2
    exit 1
}

# From llvm-mc's output the encodings, one a line, in plain hex.
encodings() {
    sed -n 's/.*# encoding: \[\(.*\)\]$/\1/p' | sed 's/0x//g; s/,//g'
}

# From llvm-mc's output the instructions' text, blanks made single.
texts() {
    sed -n 's/[[:space:]]*# encoding: .*$//p' | sed 's/^[[:space:]]*//; s/[[:space:]][[:space:]]*/ /g'
}

# 1. What is wanted: operation source width register form|assembler text.
awk 'BEGIN {
    split("rax rcx rdx rbx rsp rbp rsi rdi", old64)
    split("eax ecx edx ebx esp ebp esi edi", old32)
    split("mov add sub cmp lea", names)
    for (operation = 0; operation <= 4; operation++)
        for (source = 0; source <= 2; source++) {
            if ((operation == 4) != (source == 2))
                continue
            for (width = 1; width >= 0; width--)
                for (register = 0; register < 32; register++) {
                    name = register < 8 ? (width ? old64[register + 1] : old32[register + 1]) \
                                        : "r" register (width ? "" : "d")
                    text = names[operation + 1] (width ? "q " : "l ") \
                           (source == 1 ? "$287454020" : "287454020(%rip)") ", %" name
                    key = operation " " source " " width " " register
                    print key " plain|" text
                    if (register < 8 && !width)
                        print key " rex|{rex} " text
                    if (register < 16)
                        print key " rex2|{rex2} " text
                }
        }
}' >"$dir/wanted"

# 2. What llvm-mc makes of it.
sed 's/^[^|]*|//' "$dir/wanted" >"$dir/source.s"
# shellcheck disable=SC2086
"$mc" $mc_options "$dir/source.s" | encodings >"$dir/assembled"
[ "$(wc -l <"$dir/wanted")" -eq "$(wc -l <"$dir/assembled")" ] || fail "an encoding is missing"
if grep -qv '^[0-9a-f]*$' "$dir/assembled"; then
    fail "an encoding is not plain hex"
fi

# 3. The lines: key form|text|bytes|assembled or derived.
#
# mov imm, 32 bits (B8+r picked): the 64-bit C7 form with W cleared.
# add, sub, cmp imm with register 0 (05, 2D, 3D picked): the form for register
# 8 with REX.B cleared, or for register 16 with the REX2 payload's B4 cleared.
# A REX of 40 that is left over is dropped for the form without a prefix.
paste -d '|' "$dir/wanted" "$dir/assembled" | awk -F '|' '
function prefix_length(bytes) {
    if (substr(bytes, 1, 2) == "d5")
        return 4
    return substr(bytes, 1, 1) == "4" ? 2 : 0
}
# The digit at a position less an amount.
function less(bytes, position, amount,    value) {
    value = index(digits, substr(bytes, position, 1)) - 1
    if (int(value / amount) % 2 != 1) {
        print "make_rex2_list.sh: the bit to clear in " bytes " is not set" >"/dev/stderr"
        exit 1
    }
    return substr(bytes, 1, position - 1) substr(digits, value - amount + 1, 1) substr(bytes, position + 1)
}
function derive(operation, source, width, register, form,    bytes) {
    if (operation == 0)
        bytes = less(made[operation " " source " 1 " register " " \
                          (register < 16 && form == "rex2" ? "rex2" : "plain")], \
                     register >= 16 || form == "rex2" ? 4 : 2, 8)
    else if (form == "rex2")
        bytes = less(made[operation " " source " " width " 16 plain"], 3, 1)
    else
        bytes = less(made[operation " " source " " width " 8 plain"], 2, 1)
    if (form == "plain" && substr(bytes, 1, 2) == "40")
        bytes = substr(bytes, 3)
    return bytes
}
BEGIN {
    digits = "0123456789abcdef"
    split("8b 03 2b 3b", slot_opcodes, " ")
    split("c7 81 81 81", immediate_opcodes, " ")
}
{
    made[$1] = $3
    keys[NR] = $1
    texts[NR] = $2
}
END {
    for (i = 1; i <= NR; i++) {
        split(keys[i], key, " ")
        bytes = made[keys[i]]
        opcode = key[2] == 2 ? "8d" : key[2] == 1 ? immediate_opcodes[key[1] + 1] : slot_opcodes[key[1] + 1]
        if (substr(bytes, prefix_length(bytes) + 1, 2) == opcode)
            print keys[i] "|" texts[i] "|" bytes "|assembled"
        else
            derived[++count] = keys[i] "|" texts[i] "|" \
                               derive(key[1], key[2], key[3], key[4], key[5]) "|derived"
    }
    for (i = 1; i <= count; i++)
        print derived[i]
}' >"$dir/lines"
[ "$(wc -l <"$dir/wanted")" -eq "$(wc -l <"$dir/lines")" ] || fail "a line is missing"

# 4. Read back: llvm-mc must disassemble each encoding to the text asked for.
cut -d '|' -f 3 "$dir/lines" | sed 's/../0x& /g' >"$dir/bytes"
# shellcheck disable=SC2086
"$mc" $mc_options --disassemble "$dir/bytes" >"$dir/disassembled"
texts <"$dir/disassembled" >"$dir/read_back"
cut -d '|' -f 2 "$dir/lines" | sed 's/^{[a-z0-9]*} //' >"$dir/expected"
cmp "$dir/expected" "$dir/read_back" || fail "an encoding reads back as something else"

# 5. Encoded again from what was read, a line without a needless prefix must
# give the same bytes. (llvm-mc drops needless prefixes here.)
encodings <"$dir/disassembled" >"$dir/again"
paste -d '|' "$dir/lines" "$dir/again" | awk -F '|' '
$1 ~ / plain$/ && $3 != $5 { print "make_rex2_list.sh: " $2 ": " $3 " encodes again as " $5 >"/dev/stderr"; bad = 1 }
$1 ~ / plain$/ { same++ }
END { print same + 0 > "'"$dir"'/same"; exit bad }' || fail "an encoding is not llvm-mc's own"

# 6. The list.
awk -F '|' '{
    split($1, key, " ")
    bytes = $3
    size = length(bytes) / 2
    while (length(bytes) < 24)
        bytes = bytes "00"
    printf "%02x%02x%02x%02x%02x%s\n", key[1], key[2], key[3], key[4], size, bytes
}' "$dir/lines" >"$dir/list"
[ "$(sort -u "$dir/list" | wc -l)" -eq "$(wc -l <"$dir/list")" ] || fail "a line is there twice"
cat "$dir/list"
{
    echo "$(wc -l <"$dir/list") lines:" \
         "$(grep -c '|assembled$' "$dir/lines") assembled, $(grep -c '|derived$' "$dir/lines") derived"
    echo "$(cut -d '|' -f 3 "$dir/lines" | grep -c '^d5') with REX2"
    echo "$(wc -l <"$dir/read_back") read back, $(cat "$dir/same") of them encoded again to the same bytes"
} >&2
