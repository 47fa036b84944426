# Completion of the command rabtishu for bash: commands, options, file names by their ending, numbers of refusals.
# tests/install holds it to what `rabtishu --help` says.

# The options of a command.
_rabtishu_options() {
    case $1 in
        check) echo --json --help ;;
        compile) echo -o --form --room --help ;;
        trace) echo --vcd --help ;;
        run) echo --names --vcd --state --keep --help ;;
        show) echo --names --help ;;
        move) echo --form -o --help ;;
        report) echo -o --help ;;
        explain) echo --help ;;
    esac
}

# What stands behind an option: the ending of a file, or words.
_rabtishu_value() {
    case $1:$2 in
        report:-o) _rabtishu_files html ;;
        *:-o) _rabtishu_files image ;;
        *:--names) _rabtishu_files vhd vhdl ;;
        *:--vcd) _rabtishu_files vcd ;;
        *:--state | *:--keep) _rabtishu_files '*' ;;
        *:--form) _rabtishu_words 1 ;;
        *:--room) ;;
        *) return 1 ;;
    esac
}

# What a command takes, by the number of operands that stand before.
_rabtishu_operand() {
    case $1:$2 in
        check:* | compile:0 | trace:0) _rabtishu_files vhd vhdl ;;
        trace:1 | run:1) _rabtishu_files txt ;;
        run:0 | show:0 | move:0) _rabtishu_files image ;;
        report:0) _rabtishu_files ;;
        explain:0) _rabtishu_words {1..18} ;;
    esac
}

_rabtishu_words() {
    mapfile -t COMPREPLY < <(compgen -W "$*" -- "$current")
}

# Files with one of some endings, and folders, in which there may be some.
_rabtishu_files() {
    local ending
    mapfile -t COMPREPLY < <(
        compgen -d -- "$current"
        for ending in "$@"; do
            compgen -f -X "!*.$ending" -- "$current"
        done | while read -r name; do [ -d "$name" ] || echo "$name"; done
    )
    compopt -o filenames 2> /dev/null || true
}

# How many operands stand before the current word.
_rabtishu_before() {
    local at=2 count=0
    while [ "$at" -lt "$COMP_CWORD" ]; do
        case ${COMP_WORDS[at]} in
            -o | --form | --room | --names | --vcd | --state | --keep)
                # bash makes a word of its own of the = between an option and its value.
                if [ "${COMP_WORDS[at + 1]}" = = ]; then at=$((at + 1)); fi
                at=$((at + 1))
                ;;
            -?*) ;;
            *) count=$((count + 1)) ;;
        esac
        at=$((at + 1))
    done
    echo "$count"
}

_rabtishu() {
    local current=${COMP_WORDS[COMP_CWORD]} previous=${COMP_WORDS[COMP_CWORD - 1]} command=${COMP_WORDS[1]}
    COMPREPLY=()
    if [ "$COMP_CWORD" -eq 1 ]; then
        _rabtishu_words check compile trace run show move report explain --help --version
        return
    fi
    if [ "$previous" = = ]; then previous=${COMP_WORDS[COMP_CWORD - 2]}; fi
    if [ "$current" = = ]; then current=; fi
    if _rabtishu_value "$command" "$previous"; then
        return
    fi
    case $current in
        -*) _rabtishu_words $(_rabtishu_options "$command") ;;
        *) _rabtishu_operand "$command" "$(_rabtishu_before)" ;;
    esac
}

complete -F _rabtishu rabtishu
