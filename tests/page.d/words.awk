# Prints what words.awk tells of each record of a trace, a line each.
BEGIN { readNames(names) }
isLast() { print lastInWords(); next }
{ readRecord(); print recordInWords() }
