# Made by tools/pages from --help.
complete -c hirhead -f
complete -c hirhead -s i -l ignore-case -d 'letters match in either case'
complete -c hirhead -s m -l multi-line -d '^ and $ hold at the ends of lines'
complete -c hirhead -s s -l dot-matches-new-line -d '. matches a line feed too'
complete -c hirhead -s U -l swap-greed -d 'a* is lazy, and a*? greedy'
complete -c hirhead -s F -l fixed-strings -d 'patterns are strings, not regular expressions'
complete -c hirhead -l crlf -d 'a carriage return ends a line too'
complete -c hirhead -l unicode -x -a 'on off' -d 'whether classes and words are Unicode\'s [default: on]'
complete -c hirhead -l utf8 -x -a 'on off' -d 'whether matches are of whole characters [default: on]'
complete -c hirhead -l nest-limit -x -d 'how deep groups, classes and repetitions may nest, at most 1000 [default: 250]'
complete -c hirhead -s h -l help -d 'Print help'
complete -c hirhead -s V -l version -d 'Print version'
