# What ./plan and ./desk share: a proved program, built where a source is newer than it, and run. They set `root`, the
# tree's folder, and `me`, the name that a message begins with.

# a folder is the one that is named
unset CDPATH

# status 3: it cannot run
cannot() {
    echo "$me: $1" >&2
    exit 3
}

# proves and builds the program $1, called $2, where it is missing or older than a source, and says what is proved meanwhile
built() {
    rt=$(command -v rt) || cannot "the Rattle kit's rt is not on the path"
    program=$root/crates/$1/out/$1
    if [ ! -f "$program" ] || [ -n "$(find "$root/crates" "$root/crates.txt" -name out -prune -o \( -name '*.rt' -o -name '*.antt' -o -name crates.txt \) -newer "$program" -print | head -n 1)" ]; then
        echo "$me: proving and building the $2, which takes some minutes" >&2
        mkdir -p "$root/target"
        # the program gets the time before its check, so that a file changed meanwhile is seen
        touch "$root/target/$me.mark"
        rm -f "$root/target/$me.passed"
        {
            # on an empty input, for the program that it builds
            (cd "$root/crates/$1" && rt run 2>&1 </dev/null >/dev/null) && echo passed >"$root/target/$me.passed"
        } | tee "$root/target/$me.log" | sed -n "s/^rt: chose .* for \([a-z_]*\)$/$me: proving \1/p" >&2
        [ -f "$root/target/$me.passed" ] && [ -f "$program" ] || {
            cat "$root/target/$me.log" >&2
            cannot "the $2 did not pass its check"
        }
        rm "$root/target/$me.passed"
        touch -r "$root/target/$me.mark" "$program"
    fi
}

# runs the program that was built, which is one for x86-64
run() {
    "$program" "$@"
}
