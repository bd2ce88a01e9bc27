# Completion of glslpp in fish. share/generate writes this file from `glslpp --help`.

# The files that have the name of a source, and folders; if there are none, all files.
function __glslpp_sources
    set -l files (complete -C "'' "(commandline -ct))
    string match -r -- '.*(?:\.(?:vert|frag|comp|geom|tesc|tese|mesh|task|rgen|rint|rahit|rchit|rmiss|rcall|glsl|vs|fs|gs|cs|tcs|tes|vsh|fsh|gsh|csh)|/)$' $files
    or printf '%s\n' $files
end

complete -c glslpp -f -a '(__glslpp_sources)'
complete -c glslpp -s h -l help -d 'Print help'
complete -c glslpp -s V -l version -d 'Print version'
complete -c glslpp -l rules -x -a 'glsl pp-rs' -d 'Read sources by GLSL\'s rules, or by those of the Rust crate pp-rs'
complete -c glslpp -l std -x -d 'The version of a source without #version, as 450, 330core or 310es; -std=VERSION too'
complete -c glslpp -l extension -x -d 'Define the macro of an extension as 1, as a compiler that has it'
complete -c glslpp -s D -x -d 'Define a macro before the source, as 1 if no content is given'
complete -c glslpp -s U -x -d 'Undefine NAME, also if predefined'
complete -c glslpp -l undef -d 'Define no predefined name'
complete -c glslpp -s o -r -F -d 'Write to the file, if no source has an error; in a folder to a file for each source'
complete -c glslpp -s P -d 'Print each run of tokens as one line'
complete -c glslpp -l tokens -d 'Print the items as JSON, one a line'
complete -c glslpp -l directives -d 'Print the #version, #extension and #pragma lines alone'
complete -c glslpp -l definitions -d 'Print the macros that are defined at the end: -dM too'
complete -c glslpp -l line-names -d 'Name files in #line lines by their names, and not by numbers'
complete -c glslpp -l html -d 'Print a page that shows which lines are compiled, and what macros become'
complete -c glslpp -s I -x -d 'Look for included files in the folder DIR too'
complete -c glslpp -l include -r -F -d 'Include FILE before each source: -include too'
complete -c glslpp -l dependencies -d 'Print the rule for Make and Ninja, and not the source: -M and -MM too'
complete -c glslpp -l write-dependencies -d 'Write the rule for Make and Ninja beside the output: -MD and -MMD too'
complete -c glslpp -l dependency-file -r -F -d 'Write the rule to FILE, not to that of -o with .d: -MF too'
complete -c glslpp -l target -x -d 'The target of the rule as it is, not the file of -o: -MT too'
complete -c glslpp -l quoted-target -x -d 'The same, written as Make reads it: -MQ too'
complete -c glslpp -l phony-targets -d 'Add an empty rule for each included file: -MP too'
complete -c glslpp -l first-error -d 'End at the first error'
complete -c glslpp -l budget -x -d 'Take at most N steps for a source, 0 for any number, 100000000 if it isn\'t given'
complete -c glslpp -l max-errors -x -d 'Report at most N errors of a source, 0 for all, 20 if it isn\'t given'
complete -c glslpp -l error-format -x -a 'text json' -d 'Write messages on a source as text, or as JSON, one a line'
complete -c glslpp -l color -x -a 'auto always never' -d 'Use colours in messages'
complete -c glslpp -l stdin-name -x -d 'Call the standard input so in messages'
complete -c glslpp -s W -x -a 'all error comment conflict extra-tokens guard reserved space undef unused-macros no-comment no-conflict no-extra-tokens no-guard no-reserved no-space no-undef no-unused-macros' -d 'Warn of KIND, or of all kinds by `all`; no more by `no-KIND`; `error` makes warnings errors'
complete -c glslpp -s w -d 'Warn of nothing'
complete -c glslpp -s E -d 'Accepted and ignored'
complete -c glslpp -s S -x -d 'Accepted and ignored'
