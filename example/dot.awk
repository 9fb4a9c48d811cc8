# The lines of gomod graph as a graph for dot, the command of graphviz, from left to right.
BEGIN { print "digraph modules {\n  rankdir = LR\n  node [shape = box, fontname = \"sans-serif\"]" }
{ printf "  \"%s\" -> \"%s\"\n", $1, $2 }
END { print "}" }
