# The rows of gomod list as package URLs. A replaced module is what replaces it; a folder has no package URL.
NF == 1 { next }                              # the main module
$3 == "=>" && $4 ~ /^[.\/]/ { next }          # replaced by a folder
{ path = $1; version = $2 }
$3 == "=>" { path = $4; version = $5 }        # replaced by a module
{ gsub(/\+/, "%2B", version); print "pkg:golang/" path "@" version }
