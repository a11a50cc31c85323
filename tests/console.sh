# For the scripts beside it, after count.sh: runs the examples of a page, a line '$ COMMAND' in a console block with what it must print under it.

# prints COMMAND TEXT: what the command writes, sentences too, with blanks at a line's end left out
prints() { [ "$(eval "$1" 2>&1 </dev/null | sed 's/ *$//')" = "$2" ] || { echo "  $1"; return 1; }; }

# may_run COMMAND: it can be run here
may_run() { true; }

# run_examples PAGE: each command is a check, and that none was passed over is one more
run_examples() {
    local page=$1 line command='' expected='' inside='' tried=0
    while IFS= read -r -u 3 line; do
        case $line in
            '```console') inside=yes ;;
            '```'*) try_example; inside= ;;
            '$ '*) [ -z "$inside" ] || { try_example; command=${line#\$ }; } ;;
            *) [ -z "$inside" ] || expected=$expected${expected:+$'\n'}$line ;;
        esac
    done 3<"$page"
    check "every command of $page was tried" all_tried "$page" "$tried"
}
all_tried() { [ "$2" -gt 0 ] && [ "$2" -eq "$(grep -c '^\$ ' "$1")" ]; }
try_example() {
    [ -n "$command" ] || return
    if may_run "$command"; then check "$command" prints "$command" "$expected"; else echo "not run here: $command"; fi
    tried=$((tried + 1)) command='' expected=''
}
