# What NAME.md says of a card; read by the scripts that run the cards, from the repository's folder.

# What stands behind "$2: " in the one line of card $1 that begins so.
said() {
    local found
    mapfile -t found < <(sed -n "s/^$2: //p" "examples/cards/$1.md")
    if [ "${#found[@]}" != 1 ]; then
        echo "examples/cards/$1.md: ${#found[@]} lines begin with \"$2: \", not one" >&2
        return 1
    fi
    echo "${found[0]}"
}

# The first values of card $1 as run and sweep take them; nothing where it needs none.
first_values() {
    local values
    values=$(said "$1" "First values") || return 1
    [ "$values" = none ] || echo "$values"
}
