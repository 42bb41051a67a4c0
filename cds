#!/usr/bin/env bash
# Runs the program if it is built, and says on standard error why it ended if its status is not 0. If the program is not built,
# runs the sources unproved, and says so; `serve`, `announce` and `share` then only say how to build it. `./cds share FOLDER [PORT]`
# serves a folder and announces the server, until it is interrupted. `./cds --prove` proves every crate and builds the program,
# which takes half an hour or more if nothing is kept. `./cds --test` runs the tests and most examples unproved.
set -u
top=$(cd "$(dirname "$0")" && pwd)
crate=$top/crates/cds_cli
program=$crate/out/cds_cli
log=$crate/out/launcher.log

tell() {
  echo "cds: $*" >&2
}

# Proves and tests every crate and builds the program, as the gate does. What the toolchain says goes into a file.
prove() {
  local log=$crate/out/prove.log
  mkdir -p "$crate/out"
  if ! command -v rt >/dev/null; then
    tell "rt is not in PATH: the Rattle kit is not there, or its folder bin is not in PATH"
    exit 1
  fi
  tell "proving and testing every crate and building the program; on a fresh machine this takes half an hour or more ($log has what is said)"
  if (cd "$top" && rt ci) >"$log" 2>&1 && [ -x "$program" ]; then
    tell "proved and built"
    exit 0
  fi
  tell "the program was not built; the end of $log says why"
  exit 1
}

# Says whether a folder is there and can be read. Says nothing if it can.
folder_fault() {
  if [ ! -e "$1" ]; then
    echo "no such folder: $1"
  elif [ ! -d "$1" ]; then
    echo "not a folder: $1"
  elif [ ! -r "$1" ] || [ ! -x "$1" ]; then
    echo "permission denied: $1"
  fi
}

# Says whether another program listens at a port.
port_fault() {
  local hex
  hex=$(printf '%04X' "$1")
  if cat /proc/net/tcp /proc/net/tcp6 2>/dev/null | grep -q "^ *[0-9]*: [0-9A-F]*:$hex [0-9A-F]*:[0-9A-F]* 0A "; then
    echo "port $1 is in use"
  elif [ "$1" -lt 1024 ] && [ "$(id -u)" -ne 0 ]; then
    echo "permission denied: port $1 is below 1024"
  fi
}

# Says whether another program has a port for datagrams.
datagram_port_fault() {
  local hex
  hex=$(printf '%04X' "$1")
  if grep -q "^ *[0-9]*: [0-9A-F]*:$hex " /proc/net/udp 2>/dev/null; then
    echo "port $1 is in use by a program that does not share it"
  elif [ "$1" -lt 1024 ] && [ "$(id -u)" -ne 0 ]; then
    echo "permission denied: port $1 is below 1024"
  fi
}

# What a scan lists, as tests of `find` below `.`: folders whose name does not begin with a dot, and FLAC files whose name does not
# begin with `._`. What is in a folder that begins with a dot is left out.
listed=(! -path '*/.*/*' '(' -type d ! -name '.*' -o -type f -iname '*.flac' ! -name '._*' ')')

# Prints the paths below a folder that a scan lists and that lead through this many names at least.
listed_from() {
  (cd "$1" && LC_ALL=C find -L . -mindepth "$2" "${listed[@]}") 2>/dev/null
}

# Says which name that a scan lists is not UTF-8.
name_fault() {
  local name
  name=$({ echo "$1" && listed_from "$1" 1; } | LC_ALL=C.UTF-8 grep -axv '.*' | head -n 1)
  [ -z "$name" ] || printf 'a name is not UTF-8: %q\n' "${name#./}"
}

# Says which of its limits a folder exceeds.
limit_fault() {
  local place objects
  place=$(listed_from "$1" 17 | head -n 1)
  objects=$(listed_from "$1" 1 | wc -l)
  if [ -n "$place" ]; then
    echo "a path has more than 16 names: ${place#./}"
  elif [ "$objects" -gt 65535 ]; then
    echo "the folder has $objects folders and FLAC files, and 65535 are the most"
  else
    echo "a path in the folder is too long, or the folder has too many objects"
  fi
}

# Says the first of these that is not empty.
first_of() {
  local text
  for text in "$@"; do
    if [ -n "$text" ]; then
      echo "$text"
      return
    fi
  done
}

# Says what is wrong with the words of `serve`, by how many words `explain` has.
word_fault() {
  if [ "$1" -eq 5 ]; then
    echo "PORT is a number below 65536 and REQUESTS one below 4294967296, both in digits"
  else
    echo "serve takes three words: ./cds serve PORT FOLDER REQUESTS"
  fi
}

# Says in one line why the program ended with this status, for these words.
explain() {
  local status=$1 command=${2-} folder=${3-}
  case $status,$command in
    1,*) echo "a line of the script is outside the grammar; the last line that was written names it" ;;
    2,scan) first_of "$(folder_fault "$folder")" "$(name_fault "$folder")" "the folder could not be read: $folder" ;;
    2,*) echo "standard input could not be read" ;;
    3,*) echo "standard output could not be written" ;;
    4,*) echo "out of memory" ;;
    5,serve) word_fault "$#" ;;
    5,announce) echo "announce takes a port, the http address of a description, a number of datagrams and maybe a UUID: ./cds announce PORT LOCATION COUNT [UUID]" ;;
    5,generate) echo "generate takes two numbers in digits: a SEED below 2^64, and TRACKS from 1 to 10000, as in ./cds generate 7 1200" ;;
    5,check | 5,replay | 5,summary) echo "$command has no further word: it reads standard input, as in ./cds $command < FILE" ;;
    5,*) echo "unknown command, or a word is missing or too many; ./cds --help lists the commands, and ./cds share FOLDER [PORT] serves and announces a folder" ;;
    6,scan) limit_fault "$folder" ;;
    6,check) echo "the input has more than 67108864 bytes" ;;
    6,*) echo "the script, or a line of it, is too long" ;;
    7,announce) first_of "$(datagram_port_fault "$folder")" "the port could not be had, or a datagram not be received" ;;
    7,*) first_of "$(folder_fault "${4-}")" "$(port_fault "$folder")" "a port, a connection or a thread could not be had" ;;
    8,*) echo "the input is no StateEvent, which is a list of changes; the number is the place of its first fault, in bytes from 0" ;;
    127,*) echo "the program could not be started" ;;
    *) echo "the program ended with status $status" ;;
  esac
}

# Runs a command, passes signals on to it, and ends with its status.
run() {
  local status
  "$@" <&0 &
  child=$!
  trap 'kill -TERM "$child" 2>/dev/null' INT TERM HUP
  wait "$child"
  status=$?
  while kill -0 "$child" 2>/dev/null; do
    wait "$child"
    status=$?
  done
  trap - INT TERM HUP
  return "$status"
}

# The group to which searches for servers are sent, and the port.
group=239.255.255.250
group_port=1900

# Prints the addresses of this machine that are of loopback, link-local or private networks.
near_addresses() {
  {
    if command -v ip >/dev/null; then
      ip -4 -o addr show up | awk '{ sub("/.*", "", $4); print $4 }'
    else
      hostname -I | tr ' ' '\n'
    fi
    echo 127.0.0.1
  } 2>/dev/null | grep -E '^(127|10|192\.168|169\.254|172\.(1[6-9]|2[0-9]|3[01]))\.' | awk '!seen[$0]++'
}

# Prints the one of these addresses at which others reach this machine: the one from which it would send a search, or else the first
# that is not loopback, or else loopback.
outer_address() {
  local own
  own=$(ip -4 route get "$group" 2>/dev/null | sed -n 's/.* src \([0-9.]*\).*/\1/p')
  {
    printf '%s\n' "$@" | grep -Fx -e "${own:-none}"
    printf '%s\n' "$@" | grep -v '^127\.'
    echo 127.0.0.1
  } | head -n 1
}

# Joins the group at these addresses until it is ended. It takes no datagram: the system hands those to all programs that have the
# port. An address that cannot join is passed over. Ends with 1 if none can, and with 127 if neither Python nor Perl is there.
join_group() {
  if command -v python3 >/dev/null; then
    exec python3 -c '
import signal, socket, sys
own = socket.socket(socket.AF_INET, socket.SOCK_DGRAM)
joined = 0
for address in sys.argv[2:]:
    try:
        own.setsockopt(socket.IPPROTO_IP, socket.IP_ADD_MEMBERSHIP, socket.inet_aton(sys.argv[1]) + socket.inet_aton(address))
        joined += 1
    except OSError:
        pass
if joined == 0:
    sys.exit(1)
signal.signal(signal.SIGINT, signal.SIG_DFL)
signal.pause()' "$group" "$@"
  elif command -v perl >/dev/null; then
    exec perl -MSocket -e '
socket(my $own, AF_INET, SOCK_DGRAM, 0) or exit 1;
my $group = inet_aton(shift);
my $joined = 0;
for (@ARGV) { $joined++ if setsockopt($own, 0, 35, $group . inet_aton($_)) }
exit 1 if $joined == 0;
sleep' "$group" "$@"
  fi
  exit 127
}

# Prints the UUID in the description of the server at a port of this machine.
device_name() {
  (
    exec 3<>"/dev/tcp/127.0.0.1/$1" || exit
    printf 'GET /device.xml HTTP/1.1\r\nHOST: 127.0.0.1:%s\r\n\r\n' "$1" >&3
    timeout 5 sed -n 's:.*<UDN>uuid\:\([0-9a-f-]*\)</UDN>.*:\1:p' <&3
  ) 2>/dev/null
}

# Waits until something listens at a port of this machine, or a process ended.
wait_for_port() {
  while kill -0 "$2" 2>/dev/null; do
    (exec 3<>"/dev/tcp/127.0.0.1/$1") 2>/dev/null && return
    sleep 0.1
  done
}

# Ends all that `share` started.
end_all() {
  local child
  trap - INT TERM HUP EXIT
  for child in $(jobs -p); do
    kill "$child" 2>/dev/null
  done
  wait
}

# Says why a command ended with this status, if that is not 0, and ends with it.
end_with() {
  [ "$1" -eq 0 ] || tell "$(explain "$@")"
  exit "$1"
}

# Says whether a program of this machine has joined the group.
is_joined() {
  grep -q '^[[:space:]]*FAFFFFEF' /proc/net/igmp 2>/dev/null
}

# Waits until the group is joined, or the process that joins it ended, or 10 s have passed.
wait_for_group() {
  local round
  for ((round = 0; round < 100; round++)); do
    is_joined && return
    kill -0 "$1" 2>/dev/null || return
    sleep 0.1
  done
}

# Says what a server lacks to be found by other machines. The words are its address and the process that joins the group.
tell_lacks() {
  wait_for_group "$2"
  if ! is_joined; then
    kill "$2" 2>/dev/null
    wait "$2"
    if [ $? -eq 127 ]; then
      tell "neither python3 nor perl is there, which join the group $group: players find the server only if another program of this machine has joined it"
    else
      tell "the group $group could not be joined: players find the server only if another program of this machine has joined it"
    fi
  fi
  case $1 in
    127.*) tell "this machine has no address in a private network: only programs on it reach the server" ;;
  esac
}

# Serves a folder at a port and announces the server, until it is interrupted or one of both ends.
share() {
  local folder=$1 port=$2 fault address location name server joiner announcer status
  local -a near
  fault=$(folder_fault "$folder")
  if [ -z "$fault" ] && (exec 3<>"/dev/tcp/127.0.0.1/$port") 2>/dev/null; then
    fault="port $port is in use"
  fi
  if [ -n "$fault" ]; then
    tell "$fault"
    exit 7
  fi
  mapfile -t near < <(near_addresses)
  address=$(outer_address "${near[@]}")
  location=http://$address:$port/device.xml
  trap 'exit 130' INT
  trap 'exit 143' TERM
  trap 'exit 129' HUP
  trap end_all EXIT
  "$program" serve "$port" "$folder" 4294967295 >/dev/null &
  server=$!
  wait_for_port "$port" "$server"
  if ! kill -0 "$server" 2>/dev/null; then
    wait "$server"
    end_with $? serve "$port" "$folder" 4294967295
  fi
  name=$(device_name "$port")
  if [ -z "$name" ]; then
    tell "the server has no description at http://127.0.0.1:$port/device.xml, so it cannot be announced"
    exit 1
  fi
  join_group "${near[@]}" &
  joiner=$!
  "$program" announce "$group_port" "$location" 4294967295 "$name" &
  announcer=$!
  sleep 0.5
  if kill -0 "$announcer" 2>/dev/null; then
    tell_lacks "$address" "$joiner"
    echo "$folder is served at port $port of $address until Ctrl-C"
    echo "in a UPnP player on this network, as VLC under Local Network, open the server cds"
    while kill -0 "$server" 2>/dev/null && kill -0 "$announcer" 2>/dev/null; do
      wait -n "$server" "$announcer"
    done
  fi
  if kill -0 "$announcer" 2>/dev/null; then
    wait "$server"
    end_with $? serve "$port" "$folder" 4294967295
  fi
  wait "$announcer"
  end_with $? announce "$group_port" "$location" 4294967295 "$name"
}

# Says what is wrong with the words of `share`, if anything is.
share_fault() {
  if [ $# -ne 1 ] && [ $# -ne 2 ]; then
    echo "share takes a folder, and a port if it is not to be 8200: ./cds share FOLDER [PORT]"
  elif [[ ! ${2-8200} =~ ^[1-9][0-9]{0,4}$ ]] || [ "${2-8200}" -gt 65535 ]; then
    echo "PORT is a number from 1 to 65535"
  fi
}

if [ $# -eq 1 ]; then
  case $1 in
    --prove) prove ;;
    --test) exec "$top/.ci/quick" ;;
    -h | help) set -- --help ;;
    -V) set -- --version ;;
  esac
fi

if [ "${1-}" = share ]; then
  fault=$(share_fault "${@:2}")
  if [ -n "$fault" ]; then
    tell "$fault"
    exit 5
  fi
fi

if [ -x "$program" ] && [ "${1-}" = share ]; then
  share "$2" "${3-8200}"
elif [ -x "$program" ]; then
  run "$program" "$@"
elif [ "${1-}" = serve ] || [ "${1-}" = announce ] || [ "${1-}" = share ]; then
  tell "the program is not built, and $1 needs it; './cds --prove' proves and builds it, in half an hour or more"
  exit 127
else
  tell "running the sources unproved, which takes a minute or more; './cds --prove' proves and builds the program, in half an hour or more"
  if [ $# -eq 2 ] && [ "$1" = scan ]; then
    case $2 in
      /*) ;;
      *) set -- scan "$PWD/$2" ;;
    esac
  fi
  mkdir -p "$crate/out"
  cd "$crate" && run rt try -- "$@" 2>"$log"
  status=$?
  if ! grep -q '^run=ended ' "$log"; then
    tell "the sources could not be run; the end of $log says why"
    exit 1
  fi
  (exit "$status")
fi
status=$?
if [ "$status" -ne 0 ] && [ "$status" -ne 130 ] && [ "$status" -ne 143 ]; then
  tell "$(explain "$status" "$@")"
fi
exit "$status"
