# common.sh: what the commands of beside/ share. Read from the top folder after tools/common.sh.

# source_given "$@": takes `--source FOLDER` off the words, leaving them in `words`, and tells cargo of it
source_given() {
    words=("$@")
    if [ "${1:-}" = --source ]; then
        [ -d "${2:-}" ] || fail "--source: there is no folder ${2:-}"
        SOURCE=$(cd "$2" && pwd -P)
        export SOURCE
        words=("${@:3}")
    fi
}
