# shellcheck shell=sh disable=SC2034
# Where the Rattle kit is, and how a program that it built is started on this machine. Read by `. tools/kit.sh`:
#   kit         the kit's folder: $RATTLE_HOME, or the one that `rt` stands in
#   toolchain   its compiler and libraries
#   emulator    runs programs for x86-64 on another processor; empty where none is needed or none is there
kit=${RATTLE_HOME:-$(dirname "$(dirname "$(readlink -f "$(command -v rt)")")")}
toolchain=$kit/toolchain
emulator=
[ "$(uname -m)" = x86_64 ] || emulator=$(command -v qemu-x86_64) || emulator=

# start PROGRAM [ARGUMENTS]: the program in this process's place
start() {
  exec ${emulator:+"$emulator"} "$@"
}

# start_by SCRIPT NAME PROGRAM [ARGUMENTS]: the same, started by a script in python that gets NAME and then the command
start_by() {
  script=$1
  name=$2
  shift 2
  # python does not start with a directory as standard input; a program that reads it finds it closed
  [ ! -d /dev/stdin ] || exec <&-
  exec python3 -IS "$script" "$name" ${emulator:+"$emulator"} "$@"
}
