# What the scripts that time a crate share: they source this file.
root=$(cd "$(dirname "$0")/.." && pwd)

# time_over PROGRAM CRATE..: in a temporary folder, over copies of the crates with their lines of crates.txt, builds
# and runs the program whose text is the standard input. The program uses these crates. With step=try it isn't proved.
time_over() {
    program=$1
    shift
    work=$(mktemp -d)
    trap 'rm -rf "$work"' EXIT
    mkdir -p "$work/crates/$program/src"
    for crate in "$@"; do
        # A library of the kit has no folder here.
        [ -d "$root/crates/$crate" ] || continue
        cp -r "$root/crates/$crate" "$work/crates/$crate"
        grep "^$crate[ :]" "$root/crates.txt"
    done > "$work/crates.txt"
    printf "%s: %s\n" "$program" "$*" >> "$work/crates.txt"
    cat > "$work/crates/$program/src/main.rt"
    cd "$work/crates/$program"
    rt "${step:-run}"
}
