# Completion of gvis for fish: commands, options, kinds of reports, profiles of ROOT.

# Whether one of these is the command, and whether there is none yet.
function __gvis_is
    set -l words (commandline -opc)
    test (count $words) -gt 1; and contains -- $words[2] $argv
end
function __gvis_no_command
    test (count (commandline -opc)) -eq 1
end

# The plain word behind the command.
function __gvis_root
    set -l is_value no
    for word in (commandline -opc)[3..]
        if test $is_value = yes
            set is_value no
        else if string match -q -- '--*' $word
            contains -- $word --fresh --json; or string match -q -- '*=*' $word; or set is_value yes
        else
            echo -- $word
        end
    end
end
function __gvis_no_root
    test -z "$(__gvis_root)"
end

# Lists between commas: what was given so far stands before each word that can follow.
function __gvis_list
    set -l given (string replace -r -- '^--[a-z]+=' '' (commandline -ct))
    set -l before (string match -r -- '^.*,' $given); or set before ''
    for word in $argv
        contains -- $word (string split , -- $before); or echo -- $before$word
    end
end
function __gvis_profiles
    set -l root (__gvis_root) .
    set -l folder (string replace -r -- '^~/' $HOME/ $root[1])
    set -l paths $folder/profiles/profiles.desc
    __gvis_is overlay; and set paths $folder/*/profiles/profiles.desc
    set -l found
    for path in $paths
        test -r $path; and set found $found (string match -r -g -- '^[ \t]*[^#\s]\S*[ \t]+([^#\s]\S*)[ \t]+[^#\s]' <$path)
    end
    __gvis_list $found
end

# The folders in ROOT that have a layout.
function __gvis_repos
    set -l root (__gvis_root) .
    set -l folder (string replace -r -- '^~/' $HOME/ $root[1])
    for path in $folder/*/metadata/layout.conf
        string match -r -g -- '([^/]+)/metadata/layout\.conf$' $path
    end
end

# Files between commas: what was given so far stands before each that can follow.
function __gvis_files
    set -l given (string replace -r -- '^--[a-z]+=' '' (commandline -ct))
    set -l before (string match -r -- '^.*,' $given); or set before ''
    for file in (string replace -- $before '' $given)*
        echo -- $before$file
    end
end

complete -c gvis -f
complete -c gvis -n __gvis_no_command -a scan -d 'Report which dependencies of a repository cannot be met'
complete -c gvis -n __gvis_no_command -a merge -d 'Report by the certificates of the parts of a scan'
complete -c gvis -n __gvis_no_command -a overlay -d 'Report on an overlay among its masters'
complete -c gvis -n __gvis_no_command -a verify -d 'Hold a report against certificates'
complete -c gvis -n __gvis_no_command -a session -d 'Serve the edits and reports of a script'
complete -c gvis -n __gvis_no_command -a lint -d 'Report defaults that do not hold, needless versions and unknown names'
complete -c gvis -n __gvis_no_command -a demo -d 'Sum up a repository that a number draws'
complete -c gvis -n __gvis_no_command -a help -d 'Show the words of each command'
complete -c gvis -n __gvis_no_command -s h -l help -d 'Show the words of each command'
complete -c gvis -n __gvis_no_command -l version -d 'Tell the version'
complete -c gvis -n __gvis_no_command -l prove -d 'Prove and build the program'

# For each option the commands that have it.
complete -c gvis -n '__gvis_is scan overlay merge verify session lint; and __gvis_no_root' -a '(__fish_complete_directories)'
complete -c gvis -n '__gvis_is scan overlay merge verify' -l certs -r -F -d 'Where the certificates are kept'
complete -c gvis -n '__gvis_is verify' -l report -r -F -d 'The report that is held against them'
complete -c gvis -n '__gvis_is overlay' -l repo -x -a '(__gvis_repos)' -d 'The folder of the overlay'
complete -c gvis -n '__gvis_is scan overlay' -l fresh -d 'Pass over earlier certificates'
complete -c gvis -n '__gvis_is scan overlay merge verify session lint' -l json -d 'An object a line'
complete -c gvis -n '__gvis_is scan overlay merge verify session' -l keywords -x -d 'These kinds of reports alone' \
    -a '(__gvis_list ProfileError ProfileNote MetadataError StaleCache OrphanCache MissingCache NonexistentDeps NonsolvableDepsInStable NonsolvableDepsInDev NonsolvableDepsInExp UnsatisfiableRequiredUse UnstatedIuse VisibleVcsPkg)'
complete -c gvis -n '__gvis_is lint' -l keywords -x -d 'These kinds of reports alone' \
    -a '(__gvis_list RequiredUseDefaults RedundantVersion UnknownProfilePackage)'
complete -c gvis -n '__gvis_is scan overlay merge verify session lint' -l profiles -x -a '(__gvis_profiles)' -d 'These profiles alone'
complete -c gvis -n '__gvis_is scan overlay session' -l budget -x -a '65536 1000000' -d 'Sets that one query may keep'
complete -c gvis -n '__gvis_is scan' -l part -x -d 'Which part of how many, as 1/4'
complete -c gvis -n '__gvis_is merge' -l from -x -a '(__gvis_files)' -d 'The files of the parts, between commas'
complete -c gvis -n '__gvis_is merge' -l of -x -d 'How many parts there are'
