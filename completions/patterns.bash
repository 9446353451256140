# Completion of `patterns` for bash. Made by tools/man.
_patterns() {
    local word=${COMP_WORDS[COMP_CWORD]} before=${COMP_WORDS[COMP_CWORD - 1]} options=
    if ((COMP_CWORD == 1)); then
        mapfile -t COMPREPLY < <(compgen -W 'check tree picture lint format groups server help --help --version' -- "$word")
        return
    fi
    case $before in
        --color) mapfile -t COMPREPLY < <(compgen -W 'auto always never' -- "$word") && return ;;
        --format) mapfile -t COMPREPLY < <(compgen -W 'text json github sarif' -- "$word") && return ;;
        --allow | --warn | --deny | --explain) mapfile -t COMPREPLY < <(compgen -W 'missing-group missing-condition-group missing-begin-group missing-capture-group useless-backreference unresolved-call numbered-reference duplicate-group-name unused-capturing-group duplicate-branch unreachable-branch unused-escape empty-branch quantified-assertion impossible-assertion useless-look-around empty-loop lazy-at-end invalid-quantifier useless-quantifier zero-quantifier exponential-backtracking polynomial-backtracking quadratic-search useless-flag single-character-class invalid-class empty-class duplicate-characters characters-in-escape suspicious-class suspicious-range hyphen-range subsumed-branch dialect-difference all' -- "$word") && return ;;
        --flags | -e | --regexp | --keys | --width | --dialect | --max-warnings) return ;;
    esac
    case ${COMP_WORDS[1]} in
        check) options='--flags -e --regexp -z --null-data --lines -q --quiet --color --config --no-config --textmate --keys --records --format --json -h --help' ;;
        tree) options='--flags --ascii --spans --trivia --all --classes --facts --json -e --regexp --file --config --no-config -h --help' ;;
        picture) options='--flags --html --width -e --regexp --file --config --no-config -h --help' ;;
        lint) options='--flags -e --regexp -z --null-data --lines -q --quiet --color --config --no-config --textmate --keys --records --allow --warn --deny --dialect --max-warnings --fix --diff --format --json -v --verbose --rules --explain -h --help' ;;
        format) options='--flags -e --regexp -z --null-data --lines -q --quiet --color --config --no-config --textmate --keys --records --write --check --diff -v --verbose --width --compact --canonical --drop-comments -h --help' ;;
        groups) options='--flags -e --regexp -z --null-data --lines -q --quiet --color --config --no-config --textmate --keys --records --classes --json -h --help' ;;
        server) options='--flags -z --null-data --config --no-config -h --help' ;;
        help) options='check tree picture lint format groups server' ;;
    esac
    case $word in
        -*) mapfile -t COMPREPLY < <(compgen -W "$options" -- "$word") ;;
        *) mapfile -t COMPREPLY < <(compgen -f -- "$word") ;;
    esac
}
complete -o filenames -F _patterns patterns
