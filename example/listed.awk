# The lines of gomod graph between listed versions: listed.awk ROWS EDGES, where ROWS is what gomod list prints.
FNR == NR { listed[FNR == 1 ? $1 : $1 "@" $2]; next }
$1 in listed && $2 in listed
