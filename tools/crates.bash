# Sourced by the scripts that need to know what a crate depends on. Sets `uses`: the libraries of each crate, from crates.txt, and those that
# every crate uses.
declare -A uses=()
while IFS=: read -r crate libraries; do
    uses[${crate%% *}]="core std$libraries"
done < <(grep -v '^#' "$(dirname "${BASH_SOURCE[0]}")/../crates.txt")

# Writes the libraries of this repository that a crate depends on, each after those that it depends on itself.
below() {
    local library
    for library in ${uses[$1]}; do
        [ -z "${uses[$library]-}" ] || { below "$library" && echo "$library"; }
    done | awk '!seen[$0]++'
}
