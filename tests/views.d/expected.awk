# What explain has to say of a .words file: its lines as they were worked out, in explain's columns. Of version 2 it says first how many levels there are.
function head() { printf "%7s %7s %-3s   %s\n", "record", "tick", "by", "the call: what came of it; the object now; who runs now" }
/^#/ || /^$/ { next }
$1 == "version" && $2 == 2 { print "the log has 32 levels (version 2): task priorities go to 31" }
$1 == "version" { next }
n == 0 { head() }
{
    said = substr($0, index($0, " ; ") + 3)
    split(said, f, " ")
    printf "%7d %7s %-3s %s %s\n", ++n, f[1], f[2], f[3] == "!" ? "!" : " ", substr(said, length(f[1] f[2] f[3]) + 4)
}
END { print "end of the log: " n " records" }
