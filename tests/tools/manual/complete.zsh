#!/usr/bin/zsh -f
# complete.zsh DIRECTORY: prints what the completion _bootimg in this directory offers for each line of standard input: a line
# `= LINE`, and then a line for each match. A shell with a terminal of its own completes the lines; it reads this file, too.

if [[ -o interactive ]]; then
    PROMPT=
    setopt extended_glob no_auto_list
    fpath=($directory $fpath)
    zmodload zsh/zutil
    autoload -U compinit && compinit -D -u
    # Writes the matches of a call to the file, too. A call with -O, -A or -D adds none.
    compadd() {
        if [[ -z ${(M)@[1,(i)(-|--)]:#-[a-zA-Z12]#[OAD]*} ]]; then
            local -a found
            local -A parts
            zparseopts -E -A parts P: p: S: s:
            builtin compadd -A found "$@"
            [[ -z $found ]] || print -rl -- $IPREFIX$parts[-P]$parts[-p]$^found >> $matches
        fi
        builtin compadd "$@"
    }
    # Completes the line, empties it and says so.
    complete-line() {
        zle complete-word
        BUFFER=
        print -n '\0'
    }
    zle -N complete-line
    bindkey '^I' complete-line
    print -n '\0'
    return
fi

zmodload zsh/zpty
export directory=$1 matches=$(mktemp)
trap 'rm -f $matches' EXIT
zpty shell zsh -f -i
zpty -w shell "source ${(q)0:A}"
zpty -r shell output $'*\0'
while IFS= read -r line; do
    : > $matches
    zpty -w -n shell $line$'\t'
    zpty -r shell output $'*\0'
    print -r -- "= $line"
    cat $matches
done
zpty -d shell
