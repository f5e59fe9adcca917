# What the scripts over real files share. A script sources it from the top of the repository after `rt ci`, which leaves the
# program at crates/upipe/out/upipe; then it stands in a folder of its own, which goes when the script ends.
top=$(cd "$(dirname "$0")/.." && pwd) || exit 1
upipe="$top/crates/upipe/out/upipe"
if [ ! -x "$upipe" ]; then
    echo "$0: $upipe isn't there: run rt ci first"
    exit 1
fi
folder=$(mktemp -d) || exit 1
trap 'rm -rf "$folder"' EXIT
cd "$folder" || exit 1
passed=0
failed=0

# check NAME COMMAND..: the command answers 0
check() {
    name=$1
    shift
    if "$@" > /dev/null 2>&1; then
        passed=$((passed + 1))
    else
        failed=$((failed + 1))
        echo "$0: $name: failed"
    fi
}

# ends STATUS COMMAND..: the command ends with this status
ends() {
    wanted=$1
    shift
    "$@"
    [ $? -eq "$wanted" ]
}

# chain SOURCE SINK: a graph from one path to the other
chain() {
    sed -e "s#capture.ts#$1#" -e "s#archive.ts#$2#" "$top/examples/copy.toml"
}

# tells LINE COMMAND..: the command writes this line to standard error, and nothing to standard output
tells() {
    line=$1
    shift
    "$@" > out.txt 2> err.txt
    [ ! -s out.txt ] && [ "$(cat err.txt)" = "$line" ]
}

# sum_up WHAT: prints the sum, and answers 0 where nothing failed
sum_up() {
    echo "$1: $passed passed, $failed failed"
    [ "$failed" -eq 0 ]
}
