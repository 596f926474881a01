# Sourced by the scripts that count instructions: a folder of its own with copies of crates and a program `bench` over
# them, built by rt, and a count of instructions by valgrind's callgrind. The folder is BENCH_FOLDER, which is kept, or
# one that goes at the end.
top=$(cd "$(dirname "${BASH_SOURCE[0]}")/.." && pwd)
work=${BENCH_FOLDER:-$(mktemp -d)}
[ -n "${BENCH_FOLDER:-}" ] || trap 'rm -rf "$work"' EXIT
mkdir -p "$work"
cd "$work"

# The crate of this name and all that it stands on, as crates.txt says.
crates_below() {
    python3 -c 'import sys; sys.path.insert(0, sys.argv[1]); import sources; print(*sources.crates_below(sys.argv[2]))' "$top/scripts" "$1"
}

# Copies a crate and all that it stands on, with their lines of crates.txt.
copy_crates() {
    [ -e .git ] || git init -q .
    mkdir -p crates/bench/src crates/bench/specs
    touch crates/bench/specs/Lib.antt
    : > crates.txt
    local name part
    for name in $(crates_below "$1"); do
        mkdir -p "crates/$name"
        for part in src specs proofs; do
            [ ! -e "$top/crates/$name/$part" ] || cp -r "$top/crates/$name/$part" "crates/$name/"
        done
        grep "^$name:" "$top/crates.txt" >> crates.txt
    done
}

# Builds the program, whose line of crates.txt names these crates; its source is read from the input. Beside it stands the
# module `arguments`.
build_bench() {
    echo "bench: $*" >> crates.txt
    cat > crates/bench/src/main.rt
    cat > crates/bench/src/arguments.rt <<'RT'
//! The program's arguments.
use std::env;
use std::io;

/// The arguments as numbers, 0 for one that is none.
pub fn numbers(rt: HostRuntime) -> io::Result<Vec<u32>> {
    let mut numbers = Vec::new(rt.alloc());
    for word in env::args(&rt)?.skip(1) {
        numbers.push(word.as_str().parse::<u32>().unwrap_or(0))?;
    }
    Ok(numbers)
}
RT
    rm -f crates/bench/out/bench
    (cd crates/bench && rt run) > build.log 2>&1 || true
    [ -x crates/bench/out/bench ] || { tail -20 build.log; exit 1; }
}

# The instructions of one run of the program with these arguments.
instructions() {
    valgrind --tool=callgrind --callgrind-out-file=/dev/null crates/bench/out/bench "$@" 2>&1 | sed -n 's/.*Collected : //p'
}
