# Read by scripts that run the samples, where $here is the top of the repository: builds the samples and the program, and
# makes a folder $work, which goes when the script ends. Where the cross compiler is missing the script ends, skipped.
told=$("$here/samples/build.sh") || exit 1
if [ -n "$told" ]; then
    echo "$(basename "$0" .sh): $told"
    exit 0
fi
"$here/spechint" plain "$here/crates/spechint/data/m1" > /dev/null
[ $? = 7 ] || exit 1
work=$(mktemp -d) || exit 1
trap 'rm -rf "$work"' EXIT
trap 'exit 1' HUP INT TERM
