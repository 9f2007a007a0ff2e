# From the disassembly of all words, a line each ("2000 LD R0, #0"), to runs of words that differ in the last number alone.
# A run: first word, number of words, name, register or nzp at bits 9 to 11, register at bits 6 to 8, last operand.
function hex(s,  i, n) { n = 0; for (i = 1; i <= length(s); i++) n = n * 16 + index("0123456789ABCDEF", substr(s, i, 1)) - 1; return n }
function number(s,  n) { n = substr(s, 1, 1) == "x" ? hex(substr(s, 2)) : substr(s, 2) + 0; return n < 0 ? n + 65536 : n }
function flush() { if (count) printf "%04X %04X %-5s %s %s %s%04X\n", start, count, name, first, second, mark, last }
{
    word = hex($1); text = $0; sub(/^[^ ]+ /, "", text); gsub(/,/, "", text); k = split(text, f, " ")
    n = toupper(f[1]); a = "-"; b = "-"; m = "-"; v = 0
    if (n ~ /^BR/) { a = (n ~ /N/) * 4 + (n ~ /Z/) * 2 + (substr(n, 3) ~ /P/); n = "BR" }
    if (n == "JMP" || n == "JSRR") b = substr(f[2], 2)
    else {
        r = 2
        if (r <= k && f[r] ~ /^R/) { a = substr(f[r], 2); r++ }
        if (r <= k && f[r] ~ /^R/) { b = substr(f[r], 2); r++ }
        if (r <= k) { m = f[r] ~ /^R/ ? "R" : "#"; v = m == "R" ? substr(f[r], 2) + 0 : number(f[r]) }
    }
    if (count && word == start + count && n == name && a == first && b == second && m == mark && m != "-" && v == last + count) count++
    else { flush(); start = word; count = 1; name = n; first = a; second = b; mark = m; last = v }
}
END { flush() }
