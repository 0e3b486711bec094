# Read by the scripts that hold ours to something.
# shellcheck shell=bash
# noticed PATTERN COMMAND ..: the command holds ours to something wrong, or more closely than it may. It has to end with 1, and
# what it says on standard error has to be like the pattern.
noticed() {
    local said status=0
    said=$("${@:2}" 2>&1 >/dev/null) || status=$?
    # shellcheck disable=SC2053
    if [ "$status" != 1 ] || [[ $said != $1 ]]; then
        echo "$(basename "$0"): a difference was not noticed by $(basename "$2") ${*:3}:" \
            "it ended with $status and said ${said:-nothing}" >&2
        exit 1
    fi
    echo "noticed, as it has to be: $said"
}
