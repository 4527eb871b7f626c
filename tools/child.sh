# shellcheck shell=bash
# For the scripts that build, which read this file: one child at a time, in a process group of its own. So ^C at the
# terminal reaches the script alone, and the script ends the child with all that it started before it cleans up.
child=

start() {
  set -m # gives the child its group; on for longer, it would take sleep and the like out of the reach of ^C as well
  "$@" </dev/null &
  child=$!
  set +m
}

# Waits for the child, and answers with its status.
ended() {
  wait "$child"
  local status=$?
  child=
  return "$status"
}

stop() {
  [ -n "$child" ] || return 0
  kill -- "-$child" 2>/dev/null
  wait "$child" 2>/dev/null
  child=
}

# Has the script's function clean called at the end, however that comes. After a signal the status is 128 and its number.
clean_at_end() {
  trap 'trap "" HUP INT TERM; clean' EXIT
  trap 'exit 129' HUP
  trap 'exit 130' INT
  trap 'exit 143' TERM
}
