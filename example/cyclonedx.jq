# The rows of gomod list, split by rows.awk, and the lines of gomod graph as a CycloneDX document with dependencies:
#
#   jq -n --rawfile rows FILE --rawfile edges FILE [--arg tool "$(gomod --version)"] [--arg time TIME] -f cyclonedx.jq
#
# The first row is the main module. A replaced module is listed as what replaces it; one that a folder replaces is code
# of your own, so what it requires is a dependency of the main module.
def lines: split("\n")[:-1][];
def purl: "pkg:golang/\(.path)@\(.version | @uri)";

[$rows | lines | split("\t")] as $rows
| $rows[0][0] as $main
# by path, each listed module as graph writes it, and what is built, or null for a folder
| INDEX($rows[1:][]; .[0])
| map_values({
    module: "\(.[0])@\(.[1])",
    built: (if .[4] != "" then null elif .[2] != "" then {path: .[2], version: .[3]} else {path: .[0], version: .[1]} end)
  }) as $listed
| (reduce $listed[] as $it ({($main): $main}; .[$it.module] = if $it.built then $it.built | purl else $main end)) as $ref
| ([$main, ($listed[].built | values | purl)] | map({(.): []}) | add) as $none
| (reduce ($edges | lines | split(" ")) as [$from, $to] ($none;
    $ref[$from] as $from
    | $listed[$to | sub("@[^@]*$"; "")].built as $to
    | if $from and $to then .[$from] += [$to | purl] else . end)) as $needs
| {
    bomFormat: "CycloneDX",
    specVersion: "1.5",
    version: 1,
    metadata: ({component: {"bom-ref": $main, type: "application", name: $main}}
      + ($ARGS.named.time | if . then {timestamp: .} else {} end)
      + ($ARGS.named.tool | if . then split(" ") | {tools: {components: [{type: "application", name: .[0], version: .[1]}]}}
        else {} end)),
    components: [$listed[].built | values | {type: "library", "bom-ref": purl, name: .path, version, purl: purl}] | unique,
    dependencies: [$needs | to_entries[] | {ref: .key, dependsOn: (.value | unique)}]
  }
