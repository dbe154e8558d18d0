# The calls of a .words file as a log, in octal escapes for printf. The records have the version that a line `version N` says, else 1.
function byte(n) { return sprintf("\\%03o", n) }
function word(n) { return byte(int(n / 16777216)) byte(int(n / 65536) % 256) byte(int(n / 256) % 256) byte(n % 256) }
function digit(c) { return index("0123456789abcdef", c) - 1 }
BEGIN { version = 1 }
/^#/ || /^$/ { next }
$1 == "version" { version = $2; next }
{
    split($0, part, " *;")
    n = split(part[1], f, " ")
    printf "%s%s%s%s", byte(0), byte(18), byte(version), byte(16 * digit(substr(f[1], 1, 1)) + digit(substr(f[1], 2, 1)))
    for (i = 2; i <= 5; i++) printf "%s", word(i <= n ? f[i] : 0)
}
