# Completions of kuifje for fish: commands, options, gains and files.
# words: written by .ci/tables
set -l commands \
    'hyper:each posterior that a run may leave, and how likely it is' \
    'traces:what can be shown, with the probability of each value beside it' \
    'leak:how much better an adversary does for what it sees' \
    'attack:what an adversary does best at each inner' \
    'reach:with how many tries the target is guessed' \
    'lines:what is left where each statement, wherever it stands, shows nothing' \
    'blame:what is left where each statement in turn shows nothing' \
    'quiet:the hyper where some statements show nothing' \
    'trail:how many posteriors there are after each statement' \
    'refine:whether B leaks no more than A, as declared' \
    'covers:whether B leaks no more than A, whatever all variables are at first' \
    'check:whether a certificate proves what it says' \
    'channel:how likely each trace is for each value of the target' \
    'capacity:by how much a look helps at most, for any prior on the declared values' \
    'cascade:the capacity of B after A' \
    'parallel:the capacity of A and B side by side' \
    'choice:the capacity of A with a probability, and else B' \
    'make:a summary of a large program that kuifje makes itself'
set -l with_gain leak attack lines
set -l with_json refine
set -l gains bayes tries: guessing table:
set -l with_certificate check
set -l with_program hyper traces leak attack reach lines blame quiet trail refine covers check channel capacity cascade parallel choice
# to here

# Folders, and the files whose names end in . and the first argument, each after the second one.
function __kuifje_files
    set -l word (commandline -ct | string replace -r '^(--gain=)?table:' '')
    for file in $word*.$argv[1] $word*/
        printf '%s%s\n' "$argv[2]" $file
    end
end

set -l words (string replace -r ':.*' '' $commands)
complete -c kuifje -f
for command in $commands
    set -l parts (string split -m 1 : $command)
    complete -c kuifje -n "not __fish_seen_subcommand_from $words" -a $parts[1] -d $parts[2]
end
complete -c kuifje -l turns -x -d 'how many turns a loop may have, 1 to 65535'
complete -c kuifje -n "__fish_seen_subcommand_from $with_gain" -l gain -x -a "$gains (__kuifje_files json table:)" \
    -d 'what the adversary does and gains'
complete -c kuifje -n "__fish_seen_subcommand_from $with_json" -l json -d 'print the verdict as a certificate'
complete -c kuifje -n "__fish_seen_subcommand_from $with_certificate" -a '(__kuifje_files json)'
complete -c kuifje -n "__fish_seen_subcommand_from $with_program" -a '(__kuifje_files kf)'
