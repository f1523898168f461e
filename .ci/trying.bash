# What the scripts that try a command share. They are run at the top of the repository.
set -u
room=$(mktemp -d) || exit
trap 'rm -rf -- "$room"' EXIT
tried=0
failed=0

# judge WHAT ENDED STATUS TEXT: a command ended with a status and wrote $room/out; these are the due ones.
judge() {
  tried=$((tried + 1))
  [[ $2 == "$3" ]] && printf '%s' "$4" | cmp -s - "$room/out" && return
  failed=$((failed + 1))
  printf 'FAILED: %s: status %s, due %s; wrote %q, due %q\n' \
    "$1" "$2" "$3" "$(head -c 300 "$room/out")" "${4:0:300}"
}

# try WHAT STATUS TEXT COMMAND..: runs the command and judges it.
try() {
  local what=$1 status=$2 text=$3
  shift 3
  "$@" > "$room/out"
  judge "$what" $? "$status" "$text"
}

# Ends the script, and fails where a try did.
finish() {
  printf '%s: %d of %d passed\n' "$1" "$((tried - failed))" "$tried"
  exit $((failed > 0))
}
