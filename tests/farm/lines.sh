# shellcheck shell=sh
# Sourced by the scripts that compare what `farm` answers a client with what `steps` answers its lines alone. It wants
# what compare.sh sets, and works in the current folder, where cP is the file of project P.

# Begins the file of project $1, which submits the source in the file $2.
begin() {
  { printf 'submit %s %s\n' "$1" "$(wc -c < "$2")"; cat "$2"; echo; } > "c$1"
}

# What `steps` answers to the lines of project $1 in its file, where each `await` is a worker's work on that trial.
alone() {
  awk -v p="$1" '
    /^await / { print "claim 0 " p " " $3; print "slice 0 " p " " $3 " 1000000"; print "file 0 " p " " $3; next }
    { print }' "c$1" | timeout 120 "$program" steps | grep -v '^w0 '
}
