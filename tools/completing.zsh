# For an interactive zsh under test: each completion prints its matches between marks, a match a line, in place of showing them.
autoload -Uz compinit
compinit -D -u
print_begin() { print -r -- '<begin>' }
print_end() { print -r -- '<end>' }
compprefuncs=(print_begin)
comppostfuncs=(print_end)
zstyle ':completion:*' insert-tab false
compadd() {
    # Calls with these options only ask for matches.
    if [[ ${@[1,(i)(-|--)]} == *-(O|A|D)\ * ]]; then
        builtin compadd "$@"
        return
    fi
    local -a matches
    builtin compadd -A matches "$@"
    print -rl -- $matches
}
print '<re''ady>'
