# Lists the files below some folders and files, each with what changes when it is written, replaced or given another
# time: its path, its size, and the times of its content and of its entry.
listing() {
    find "$@" -type f -printf '%p %s %T@ %C@\n' 2>/dev/null
}
