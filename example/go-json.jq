# A row of gomod list, split by rows.awk, with the names of go list -m -json.
split("\t")
| {Path: .[0]}
  + if .[1] == "" then {Main: true} else {Version: .[1]} end
  + if .[2] != "" then {Replace: {Path: .[2], Version: .[3]}} elif .[4] != "" then {Replace: {Path: .[4]}} else {} end
