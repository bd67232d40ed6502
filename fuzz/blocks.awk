# The first instruction of each block of the library, as an offset from x9_read, from the disassembly of the linked target:
#   objdump -d --no-show-raw-insn TARGET | awk -v names="x9_read|..." -f blocks.awk
# A block begins at a function's start, at the target of a jump, after a jump, and (past the padding) after a return.
function hex(text,   i, n) {
    n = 0
    text = tolower(text)
    for (i = 1; i <= length(text); i++) n = n * 16 + index("0123456789abcdef", substr(text, i, 1)) - 1
    return n
}
BEGIN { count = split(names, list, "|"); for (i = 1; i <= count; i++) wanted[list[i]] = 1 }
/^[0-9a-f]+ <.*>:$/ {
    name = $0
    sub(/^[0-9a-f]+ </, "", name)
    sub(/>:$/, "", name)
    inside = name in wanted
    start = 1
    if (name == "x9_read") base = hex($1)
    next
}
inside && /^ *[0-9a-f]+:\t/ {
    split($0, part, "\t")
    at = part[1]
    gsub(/[ :]/, "", at)
    at = hex(at)
    split(part[2], word, " ")
    mnemonic = word[1]
    padding = part[2] ~ /nop|^data16|^xchg +%ax,%ax|^int3/
    known[at] = 1
    if (start && !padding) { block[at] = 1; start = 0 }
    if (mnemonic ~ /^j/ || mnemonic ~ /^ret/ || mnemonic == "ud2") {
        start = 1
        if (mnemonic ~ /^j/ && word[2] ~ /^[0-9a-f]+$/) aim[hex(word[2])] = 1
    }
}
END {
    for (at in aim) if (at in known) block[at] = 1
    for (at in block) printf "%d\n", at - base
}
