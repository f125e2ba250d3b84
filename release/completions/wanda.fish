# Completions of wanda and its companions for fish. Other commands come by the last part of their names, as `wanda all`.

# The companions that lie beside the command.
function __wanda_companions
    set -l words (commandline -opc)
    set -l file (command -s -- $words[1]; or realpath -- $words[1] 2>/dev/null)
    for it in (dirname (realpath -- $file 2>/dev/null))/wanda-*
        test -x $it; and not string match -qr '(watched|launch)$' $it; and string replace -r '.*/wanda-' '' $it
    end
end

# Files whose names end in one of the endings, and folders.
function __wanda_files
    for ending in $argv
        __fish_complete_suffix .$ending
    end
end

# Whether the command is one of these, and so many words that are no options stand behind it.
function __wanda_at
    set -l words (commandline -opc | string match -v -- '-*')
    test (count $words) -eq (math $argv[1] + 2); and contains -- $words[2] $argv[2..-1]
end

set -l systems prove check show reduce refute upgrade
complete -c wanda -f
complete -c wanda -n __fish_use_subcommand -a prove -d 'look for a proof or a loop, and print the certificate'
complete -c wanda -n __fish_use_subcommand -a check -d 'check a certificate'
complete -c wanda -n __fish_use_subcommand -a show -d 'print the system as it was read, and its pairs'
complete -c wanda -n __fish_use_subcommand -a reduce -d 'take steps from a term'
complete -c wanda -n __fish_use_subcommand -a refute -d 'show that no projection helps where the search is stuck'
complete -c wanda -n __fish_use_subcommand -a upgrade -d 'write a certificate in the second version of its format'
complete -c wanda -n __fish_use_subcommand -a gen -d 'search for a proof of a system that is made'
complete -c wanda -n __fish_use_subcommand -a '(__wanda_companions)' -d companion
complete -c wanda -n __fish_use_subcommand -l help -s h -d 'how it is called'
complete -c wanda -n __fish_use_subcommand -l version -d 'of which sources it is'
complete -c wanda -n "__wanda_at 0 $systems explain hunt page" -a '(__wanda_files afs)'
complete -c wanda -n '__wanda_at 1 check upgrade explain' -a '(__wanda_files cert found)'
complete -c wanda -n '__wanda_at 0 fun' -a '(__wanda_files hs)'
complete -c wanda -n '__wanda_at 0 all release' -a '(__fish_complete_directories)'
complete -c wanda -n '__fish_seen_subcommand_from prove refute' -l tries -x -d 'clauses that may be learnt'
complete -c wanda -n '__fish_seen_subcommand_from prove' -l depth -x -d 'steps of a loop'
complete -c wanda -n '__fish_seen_subcommand_from prove' -l visited -x -d 'terms that are kept'
complete -c wanda -n '__fish_seen_subcommand_from reduce' -l steps -x -d 'steps at most'

complete -c wanda-explain -f -a '(__wanda_files afs cert found)'
complete -c wanda-explain -l lint -d 'what is likely not meant'
complete -c wanda-explain -l graph -d 'the dependency graph for Graphviz'
complete -c wanda-all -f -a '(__fish_complete_directories)'
complete -c wanda-all -l hunt -d 'and for loops'
complete -c wanda-all -l jobs -x -d 'commands side by side'
complete -c wanda-all -l seconds -x -d 'for each command'
complete -c wanda-all -l out -r -d 'where the results go'
complete -c wanda-all -l proved -d 'only a proved program'
complete -c wanda-all -l one -r -d 'one system'
complete -c wanda-all -l engine -x -a 'threads parallel' -d 'what runs the jobs'
complete -c wanda-all -l sshlogin -x -d 'a machine'
complete -c wanda-all -l at -x -d 'where wanda is on it'
complete -c wanda-hunt -f -a '(__wanda_files afs)'
complete -c wanda-hunt -l work -x -d 'how much the hunt may do'
complete -c wanda-hunt -l out -r -d 'where a certificate goes'
complete -c wanda-hunt -l stats -d 'what was refused'
complete -c wanda-page -f -a '(__wanda_files afs)'
complete -c wanda-fun -f -a '(__wanda_files hs)'
complete -c wanda-fun -l out -r -d 'where the system goes'
complete -c wanda-fun -l prove -d 'and look for proofs'
complete -c wanda-fun -l table -d 'with tabs'
complete -c wanda-fun -l json -d 'as JSON'
complete -c wanda-fun -l explain -x -d 'a function'
complete -c wanda-fun -l hunt -d 'look for loops'
complete -c wanda-fun -l jobs -x -d 'side by side'
complete -c wanda-fun -l seconds -x -d 'for each search'
complete -c wanda-build -f -a 'wanda explain hunt'
complete -c wanda-build -l unproved -d 'without its proof'
complete -c wanda-test -f -l no-gate -d 'without the gate'
complete -c wanda-test -l list -d 'the names of the tests'
complete -c wanda-release -f -a '(__fish_complete_directories)'
complete -c wanda-release -l gate -r -d 'what the gate printed'
for it in wanda-explain wanda-all wanda-hunt wanda-page wanda-fun wanda-build wanda-release wanda-test
    complete -c $it -l help -s h -d 'how it is called'
end
