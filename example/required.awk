# The rows of gomod list whose modules the main file itself requires: required.awk EDGES ROWS, where EDGES is what gomod
# graph prints. Only the main module has no version there.
FNR == NR { if ($1 !~ /@/) required[$2]; next }
($1 "@" $2) in required
