# Completion of gomod for fish, kept by hand: put it into ~/.config/fish/completions. tools/try/check_help.py compares it
# with `gomod --help`: the commands of an option are those that its condition names.

# The folders of --proxy, of a list the last one: those here, and go's cache if nothing is typed of it. fish quotes what
# it adds to a word as a whole, but for a `~` in front, so a folder that begins with one is left out.
function __gomod_folders
    set -l word (commandline -ct | string replace -r '^--proxy=' '')
    set -l quote (string match -r '^[\'"]' -- "$word")
    set -l list (string match -r '^.*[,|]' -- "$word")
    set -l last (string replace -r '^.*[,|]' '' -- "$word")
    if set -q list[1]
        set last "$quote$last"
        set -q quote[1]; and set list (string sub -s 2 -- $list); or set list (string unescape -- $list)
    end
    # a folder with a line feed in its name comes in parts, which are none
    for it in (__fish_complete_directories $last '' | string replace -r '\t.*' '')
        if string match -q '~*' -- $word; or begin
                test -d $it; and not string match -q '~*' -- "$list$it"
            end
            printf '%s%s\tFolder\n' "$list" $it
        end
    end
    set -l cache $GOMODCACHE
    if not set -q cache[1]
        set -l go (string split -m 1 : -- $GOPATH)
        set -q go[1]; or set go $HOME/go
        set cache $go[1]/pkg/mod
    end
    if string match -qr '^[\'"]?$' -- "$last"; and test -d $cache[1]/cache/download
        printf "%s%s\tGo's cache\n" "$list" $cache[1]/cache/download
    end
end

# The modules that the go.mod of this folder requires, of those that need no quotes.
function __gomod_paths
    test -f go.mod; and head -c 1048576 go.mod | awk '
        { sub(/\/\/.*/, "") }
        block && $1 == ")" { block = 0 }
        { path = block ? $1 : $1 == "require" ? $2 : "" }
        { gsub(/^["`]|["`]$/, "", path) }
        path ~ /^[A-Za-z0-9_][A-Za-z0-9._~\/-]*$/ { print path }
        /^[ \t]*require[ \t]*\(/ { block = 1 }'
end

# Whether an operation stands here whose `=` isn't typed yet.
function __gomod_needs_operation
    test (count (commandline -opc)) -gt 2; and not string match -q '*=*' -- (commandline -ct)
end

# These modules after the `=` of some operations.
function __gomod_values
    set -l verb (commandline -ct | string match -r '^(?:droprequire|require|replace)=')
    and string replace -r '^' $verb -- (__gomod_paths)
end

complete -c gomod -f

complete -c gomod -n __fish_use_subcommand -a list -d 'Print the build list'
complete -c gomod -n __fish_use_subcommand -a graph -d 'Print the module graph'
complete -c gomod -n __fish_use_subcommand -a chain -d 'Print a shortest chain of requirements to a module'
complete -c gomod -n __fish_use_subcommand -a versions -d 'Print the versions of a module'
complete -c gomod -n __fish_use_subcommand -a fmt -d 'Print a go.mod file, formatted'
complete -c gomod -n __fish_use_subcommand -a edit -d 'Apply operations to a go.mod file and print the result'
complete -c gomod -n __fish_use_subcommand -a help -d 'Print help'

complete -c gomod -n __fish_use_subcommand -s h -l help -d 'Print help'
complete -c gomod -n __fish_use_subcommand -s V -l version -d 'Print version'
complete -c gomod -n '__fish_seen_subcommand_from list graph chain versions fmt edit' -s h -l help -d 'Print help'

complete -c gomod -n '__fish_seen_subcommand_from list graph chain versions' -l proxy -x \
    -a '(__gomod_folders)' -d 'Folders with the files of modules'
complete -c gomod -n '__fish_seen_subcommand_from list graph chain' -l mod -r -F -d 'The main go.mod file'
complete -c gomod -n '__fish_seen_subcommand_from list graph chain' -l sum -r -F -d 'The go.sum to check against'
complete -c gomod -n '__fish_seen_subcommand_from list' -l after -x -a '(__gomod_paths)' \
    -d 'Print only the rows after this module'
complete -c gomod -n '__fish_seen_subcommand_from list' -l limit -x -d 'Print at most N rows'
complete -c gomod -n '__fish_seen_subcommand_from versions' -l retracted -d 'Print retracted versions too'

complete -c gomod -n '__fish_seen_subcommand_from chain versions' -d Module -a '(__gomod_paths)'

# the first word after edit is the file, the others are operations
complete -c gomod -n '__fish_seen_subcommand_from fmt' -F
complete -c gomod -n '__fish_seen_subcommand_from edit; and test (count (commandline -opc)) -eq 2' -F
complete -c gomod -n '__fish_seen_subcommand_from edit; and __gomod_needs_operation' -d Operation \
    -a 'module= go= require= droprequire= exclude= dropexclude= replace= dropreplace= retract= dropretract='
complete -c gomod -n '__fish_seen_subcommand_from edit; and test (count (commandline -opc)) -gt 2' -d Module \
    -a '(__gomod_values)'
complete -c gomod -n '__fish_seen_subcommand_from help' -a 'list graph chain versions fmt edit'
