# Completion for netconf and its tools in fish. Options are those of each tool's own help.

# The options of a tool.
function __netconf_options
    $argv[1] --help 2>/dev/null | string match -ar -- '--[a-z0-9-]+' | sort -u
end

# The words of the command line that are no options, after the command.
function __netconf_words
    string match -v -- '-*' (commandline -opc)[2..]
end

# Names of nodes of the first description among the words; of agents alone if that is asked for.
function __netconf_names
    set -l file (string match -r -- '.*\.net$' (commandline -opc))[1]
    set -l pattern '^(?:(?:agent|vectors|unit) )?(\S+) (?:is|kind)'
    test "$argv[1]" = agent; and set pattern '^agent (\S+) is'
    test -n "$file"; and netconf-run --check $file 2>/dev/null | string match -rg -- $pattern
end

# Whether the words of netconf-query are a command ($argv[1]) and so many others ($argv[2]).
function __netconf_asks
    set -l words (__netconf_words)
    test (count $words) -eq (math $argv[2] + 1); and test "$words[1]" = $argv[1]
end

complete -c netconf -n 'test (count (__netconf_words)) -eq 0' -f -a 'run check demo audit'
for tool in netconf-draw netconf-dump2bin netconf-import netconf-layout netconf-lint netconf-lsp netconf-query netconf-run
    complete -c $tool -n 'string match -q -- "-*" (commandline -ct)' -f -a "(__netconf_options $tool)"
end
complete -c netconf-query -n 'test (count (__netconf_words)) -eq 0' -f -a 'who where diff test report'
complete -c netconf-query -n '__netconf_asks who 1' -f -a '(__netconf_names)'
complete -c netconf-query -n '__netconf_asks where 1' -f -a '(__netconf_names agent)'
complete -c netconf-query -n '__netconf_asks where 2' -f -a '(__netconf_names)'
complete -c netconf-draw -l agent -x -a '(__netconf_names agent)'
