# To be sourced: fresh FILE LOG COMMAND... runs the command, which makes the file, unless the file is newer than every
# source below crates/. What the command says goes to the log; where it fails, its end is shown and the script ends.
fresh() {
    file=$1
    log=$2
    shift 2
    if [ -e "$file" ] && [ -z "$(find crates crates.txt -type f -not -path '*/out/*' -newer "$file" | head -1)" ]; then
        return
    fi
    echo "$(basename "$0"): $* (some minutes; $log has what is said)" >&2
    mkdir -p "$(dirname "$log")"
    if ! "$@" >"$log" 2>&1 || [ ! -e "$file" ]; then
        tail -5 "$log" >&2
        exit 1
    fi
}

# program NAME LOG: target/bin/NAME is the program, proved. It is built by a run without input, in its crate's folder.
program() {
    fresh "crates/$1/out/$1" "$2" sh -c "cd crates/$1 && rm -f out/$1 && { rt run </dev/null || [ -e out/$1 ]; }"
    mkdir -p target/bin
    cp -p "crates/$1/out/$1" "target/bin/$1"
}

# library NAME LOG: target/staticlib/libNAME.a is the static library, proved.
library() {
    fresh "crates/$1/out/lib$1.a" "$2" sh -c "cd crates/$1 && rt lib"
    mkdir -p target/staticlib
    cp -p "crates/$1/out/lib$1.a" "target/staticlib/lib$1.a"
}
