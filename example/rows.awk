# The rows of gomod list as five fields with tabs between them: path, version, replacing path, its version, folder. The
# control bytes of a folder, which may be any but LF, are written as \t, \r and \x1b.
BEGIN {
  OFS = "\t"
  for (at = 0; at < 32; at++) shown[sprintf("%c", at)] = sprintf("\\x%02x", at)
  shown["\t"] = "\\t"; shown["\r"] = "\\r"; shown["\177"] = "\\x7f"
}
function written(text,   at, byte, all) {
  for (at = 1; at <= length(text); at++) {
    byte = substr(text, at, 1)
    all = all (byte in shown ? shown[byte] : byte)
  }
  return all
}
{
  folder = path = version = ""
  at = index($0, " => ")                      # the first one; a folder may have another
  if (at) {
    right = substr($0, at + 4)
    $0 = substr($0, 1, at - 1)
    if (right ~ /^[.\/]/) folder = right      # a folder, with its blanks
    else { split(right, words, " "); path = words[1]; version = words[2] }
  }
  print $1, $2, path, version, written(folder)
}
