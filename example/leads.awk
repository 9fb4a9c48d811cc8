# The lines of gomod graph that lead to some version of a module, in their order: awk -v path=PATH -f leads.awk
{ line[NR] = $0; from[NR] = $1; earlier[NR] = last[$2]; last[$2] = NR }
END {
  for (module in last) if (index(module, path "@") == 1) { found[module]; left[++count] = module }
  while (count) {
    for (it = last[left[count--]]; it; it = earlier[it]) {
      kept[it]
      if (!(from[it] in found)) { found[from[it]]; waiting[++more] = from[it] }
    }
    while (more) left[++count] = waiting[more--]
  }
  for (it = 1; it <= NR; it++) if (it in kept) print line[it]
}
