# Read by the scripts beside it: makes a program once, and keeps it while what it is made of stays the same, so that it can
# be run for many scripts.
#   keep NAME MAKE FILE..     sets $program; MAKE is a function that makes the file that it is given
keep() {
    local name=$1 make=$2 folder=${XDG_CACHE_HOME:-$HOME/.cache}/lockup sum
    shift 2
    sum=$(declare -f "$make" | cat - "$@" | sha256sum | cut -c 1-32)
    program=$folder/$name-$sum
    [ -x "$program" ] && return
    mkdir -p "$folder"
    "$make" "$program.$$"
    mv "$program.$$" "$program"
}
