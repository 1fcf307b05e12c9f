# Completion of scxsim, made of its help by tools/completions.

_scxsim_files() {
    local IFS=$'\n'
    compopt -o filenames
    # shellcheck disable=SC2207
    COMPREPLY=($(compgen -f -X "!*.$1" -- "$current") $(compgen -d -- "$current"))
}

_scxsim_words() {
    # shellcheck disable=SC2207
    COMPREPLY=($(compgen -W "$1" -- "$current"))
}

_scxsim_tasks() {
    awk '/^[ \t]*\[/ { is_task = /^[ \t]*\[\[[ \t]*task[ \t]*\]\]/ }
is_task && /^[ \t]*name[ \t]*=/ { sub(/^[^=]*=[ \t]*/, ""); print substr($0, 2, index(substr($0, 2), substr($0, 1, 1)) - 1) }' "$1" 2> /dev/null
}

_scxsim() {
    local current=${COMP_WORDS[COMP_CWORD]}
    COMPREPLY=()
    if [ "$COMP_CWORD" -eq 1 ]; then
        _scxsim_words "verify verify-json explain explain-one run report check stats stats-csv why why-all why-json story step maps timeline timeline-part picture picture-part view view-part gantt gantt-part replay replay-csv explore explore-few exec asm dis cases help --help --version"
        return
    fi
    case ${COMP_WORDS[1]},$COMP_CWORD in
        help,2) _scxsim_words "verify verify-json explain explain-one run report check stats stats-csv why why-all why-json story step maps timeline timeline-part picture picture-part view view-part gantt gantt-part replay replay-csv explore explore-few exec asm dis cases" ;;
        verify,2) _scxsim_files toml ;;
        verify-json,2) _scxsim_files toml ;;
        explain,2) _scxsim_files toml ;;
        explain-one,2) _scxsim_files toml ;;
        run,2) _scxsim_files toml ;;
        run,3) _scxsim_files toml ;;
        report,2) _scxsim_files toml ;;
        report,3) _scxsim_files toml ;;
        check,2) _scxsim_files toml ;;
        check,3) _scxsim_files toml ;;
        stats,2) _scxsim_files toml ;;
        stats,3) _scxsim_files toml ;;
        stats-csv,2) _scxsim_files toml ;;
        stats-csv,3) _scxsim_files toml ;;
        why,2) _scxsim_files toml ;;
        why,3) _scxsim_files toml ;;
        why-all,2) _scxsim_files toml ;;
        why-all,3) _scxsim_files toml ;;
        why-json,2) _scxsim_files toml ;;
        why-json,3) _scxsim_files toml ;;
        story,2) _scxsim_files toml ;;
        story,3) _scxsim_files toml ;;
        story,4) _scxsim_words "$(_scxsim_tasks "${COMP_WORDS[3]}")" ;;
        step,2) _scxsim_files toml ;;
        step,3) _scxsim_files toml ;;
        maps,2) _scxsim_files toml ;;
        maps,3) _scxsim_files toml ;;
        timeline,2) _scxsim_files toml ;;
        timeline,3) _scxsim_files toml ;;
        timeline-part,2) _scxsim_files toml ;;
        timeline-part,3) _scxsim_files toml ;;
        picture,2) _scxsim_files toml ;;
        picture,3) _scxsim_files toml ;;
        picture-part,2) _scxsim_files toml ;;
        picture-part,3) _scxsim_files toml ;;
        view,2) _scxsim_files toml ;;
        view,3) _scxsim_files toml ;;
        view-part,2) _scxsim_files toml ;;
        view-part,3) _scxsim_files toml ;;
        gantt,2) _scxsim_files toml ;;
        gantt,3) _scxsim_files toml ;;
        gantt-part,2) _scxsim_files toml ;;
        gantt-part,3) _scxsim_files toml ;;
        replay,2) _scxsim_files toml ;;
        replay,3) _scxsim_files toml ;;
        replay-csv,2) _scxsim_files toml ;;
        replay-csv,3) _scxsim_files toml ;;
        explore,2) _scxsim_files toml ;;
        explore,3) _scxsim_files toml ;;
        explore,4) _scxsim_words "events ms workloads" ;;
        explore-few,2) _scxsim_files toml ;;
        explore-few,3) _scxsim_files toml ;;
        explore-few,4) _scxsim_words "events ms workloads" ;;
        exec,2) _scxsim_files bin ;;
        asm,2) _scxsim_files asm ;;
        dis,2) _scxsim_files bin ;;
        cases,*) _scxsim_files txt ;;
    esac
}

complete -F _scxsim scxsim
