# What the scripts of this folder share that count instructions; they source it once `work` is a folder.

# The instructions of a run, by valgrind; what it printed lies in the work folder.
counted() { # WORD..
    valgrind --tool=callgrind --callgrind-out-file=/dev/null "$@" >"$work/out" 2>"$work/err" || { cat "$work/err" >&2; return 1; }
    sed -n 's/.*Collected : *//p' "$work/err"
}
