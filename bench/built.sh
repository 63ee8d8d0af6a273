# Sourced by the scripts beside it, from the repository's folder. rt proves and builds what is not named by the environment:
# BEKURAPI_LIB_DIR is a folder with the static libraries, LISTING the program.

need_archives() {
    [ -z "${BEKURAPI_LIB_DIR:-}" ] || return 0
    tools/built archives >&2
    export BEKURAPI_LIB_DIR=$PWD/target/staticlib
}

need_listing() {
    [ -z "${LISTING:-}" ] || return 0
    tools/built listing >&2
    export LISTING=$PWD/target/bin/listing
}
