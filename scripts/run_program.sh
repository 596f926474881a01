# Runs a program in the caller's folder: the proved one, once ./build has made it of the sources that are there; until then the
# unproved one, which is compiled the first time. Each of the commands at the top is a call of this.
#
# usage: sh run_program.sh COMMAND [WORDS..]
command=$1
shift
top=$(CDPATH='' cd -- "$(dirname -- "$0")/.." && pwd) || exit 4
out=$top/out

# Whether a program was made of the sources that are there, by their checksums.
is_made() {
    [ -x "$out/$1" ] && (cd "$top" && sha256sum --check --status --strict "out/$1.sums") 2>/dev/null
}

if is_made "$command"; then
    exec "$out/$command" "$@"
fi
why='not built'
[ -x "$out/$command" ] && why='the sources have changed since ./build'
loader=$out/lib/ld-linux-x86-64.so.2
first=''
{ [ -x "$loader" ] && is_made "unproved-$command"; } || first=', which is compiled first, in two to three minutes'
echo "$command: $why: this is the unproved program$first; it is somewhat slower, and its answers are only tested; ./build proves and builds the real one" >&2
if [ -n "$first" ]; then
    python3 "$top/scripts/compile_unproved.py" "$command" </dev/null || exit 4
fi
exec "$loader" --inhibit-cache --library-path "$out/lib" "$out/unproved-$command" "$@"
