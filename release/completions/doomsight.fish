# Completes the words of doomsight in fish. Verbs and options are those that the program's own help names.
function __doomsight_verbs
    doomsight --help 2>/dev/null | sed -n 's/^  \([a-z][a-z]*\) .*/\1/p'
    printf '%s\n' help --help --version
end

function __doomsight_options
    set --local before (commandline --tokenize --cut-at-cursor --current-process)
    doomsight $before[2] --help 2>/dev/null | sed -n 's/^  \(--[a-z]*\) .*/\1/p'
    echo --help
end

function __doomsight_maps
    set --local before (commandline --tokenize --cut-at-cursor --current-process)
    grep -aoE 'MAP[0-9][0-9]|E[0-9]M[0-9]' -- $before[3] 2>/dev/null | sort -u
end

# Whether so many words stand before the one at the cursor, or this one does right before it.
function __doomsight_at
    set --local before (commandline --tokenize --cut-at-cursor --current-process)
    test (count $before) = "$argv[1]" -o "$before[-1]" = "$argv[1]"
end

complete --command doomsight --no-files --condition '__doomsight_at 1' --arguments '(__doomsight_verbs)'
complete --command doomsight --no-files --condition '__doomsight_at --budget' --arguments 'full enough'
complete --command doomsight --no-files --condition '__doomsight_at --refused' --arguments 'keep clear stop'
complete --command doomsight --no-files --condition '__doomsight_at --only' --arguments '(__doomsight_maps)'
complete --command doomsight --condition '__doomsight_at 3; and not __fish_seen_subcommand_from all verify maps' --arguments '(__doomsight_maps)'
complete --command doomsight --condition 'not __doomsight_at 1; and string match --quiet -- "-*" (commandline --current-token)' \
    --arguments '(__doomsight_options)'
