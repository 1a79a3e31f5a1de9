#!/usr/bin/env bash
# C programs over build/c (scripts/c/lib.sh), by the machine's C compiler alone: the calls of crates/h3_cases and hostile lists of calls
# through the header, each allocation refused in turn, large input with none refused, two endpoints under random schedules, what is held of
# a stream and of small pieces, what is to come of a frame, unknown frames, long instructions, wrong arguments, buffers that no call uses later, bytes that are read where they lie, bodies that the caller holds, pulled
# lists, datagrams and capsules, the frames of WebSockets, and the program of docs/GUIDE.md. Once as they are, and once with the sanitizers of addresses, leaks and undefined behaviour where the compiler has them
# (large input, memory: once). There, and by valgrind, each buffer that a call is given is overwritten and freed as soon as it returned. Then h3.hpp, by C++17 and C++20; the binary interface (scripts/c/abi.py); how programs find the library
# (scripts/c/test-install.sh); the packages for Go, Rust and Python (scripts/c/test-bindings.sh), and what `make dist` packs
# (scripts/dist/test-packed.sh). One line 'ok NAME' or 'failed NAME'
# for each; the last is the sum. With LIB=FOLDER the library in that folder is taken, as that of `make lib-unproved`, and none is built.
# Beside these: lists between two endpoints with the defaults, frames above the limit, cancellations, early and in floods, what `detail`
# says, what is done on ends that are drained, what streams of sessions cost that are over, COUNT=60000 pairs of random programs and a twentieth
# of them with sessions (in C++), and a short run of the fuzzers (scripts/c/fuzz.sh).
set -uo pipefail
cd "$(dirname "$0")/../.."

lib=${LIB:-build/c}
bash scripts/dev/packages.sh c || exit 1
if ! { [ -n "${LIB:-}" ] || bash scripts/c/lib.sh >&2; }; then
  echo "failed libbeanwhile_h3.a: it was not built"
  echo "0 passed, 1 failed"
  exit 1
fi
log=$(mktemp)
trap 'rm -f "$log"' EXIT
cc=${CC:-cc}
cxx=${CXX:-c++}
out=$lib/tests
mkdir -p "$out"
bad=0
mark=""
[ ! -e "$lib/UNPROVED" ] || mark=unproved # what h3_version is to say
libs=("-I$lib/beanwhile" "-L$lib" -lbeanwhile_h3 -lbeanwhile_h3_shim)

# by valgrind: with few seeds where a program has any
watched=(limits priority details arguments strict_connection in_memory datagrams unread lists never_indexed past)
declare -A few=([past]="1 100" [arguments]="$mark")

wrapped=(-Wl,--wrap=malloc,--wrap=realloc,--wrap=free)
refusing=(-Wl,--wrap=malloc,--wrap=realloc)

compile() { # NAME OUT FLAGS..
  local name=$1 to=$2
  shift 2
  if ! "$cc" -std=c11 -O1 -g -Wall -Wextra -Werror "$@" -o "$out/$to" "tests/c/$name.c" "${libs[@]}"; then
    echo "failed $to: it was not compiled"
    bad=1
  fi
}

# what stands between the programs that are compiled next and the library: each call is given buffers that are overwritten and freed
# as soon as it returned (scripts/c/poisoned.py)
lend() { # FLAGS..
  lent=("$out/poisoned.o" "@$out/poisoned.link")
  if ! { python3 scripts/c/poisoned.py "$out" &&
    "$cc" -std=c11 -O1 -g -Wall -Wextra -Werror "$@" "-I$lib/beanwhile" -c -o "$out/poisoned.o" "$out/poisoned.c"; }; then
    echo "failed poisoned.c: it was not compiled"
    bad=1
  fi
}

# programs over such buffers, by valgrind where it is there
by_valgrind() {
  if ! command -v valgrind > /dev/null; then
    echo "left out: programs by valgrind (Debian: apt-get install valgrind)" >&2
    return
  fi
  local program
  lend
  for program in "${watched[@]}"; do compile "$program" "${program}_lent" "${lent[@]}"; done
  if [ "$bad" -ne 0 ]; then return; fi
  for program in "${watched[@]}"; do
    # shellcheck disable=SC2086
    run "$program by valgrind" valgrind -q --error-exitcode=9 --leak-check=full "$out/${program}_lent" ${few[$program]:-}
  done
}

# so many random programs of two endpoints, in C++
random_programs() { # NAME OUT COUNT FLAGS..
  local name=$1 to=$2 count=$3
  shift 3
  if "$cxx" -std=c++17 -O1 -g -Wall -Wextra -Werror "${refusing[@]}" "$@" -o "$out/$to" "tests/c/$name.cc" "${libs[@]}"; then
    run "$to" "$out/$to" 1 "$count"
  else
    echo "failed $to: it was not compiled"
    bad=1
  fi
}

# COUNT=60000 of them, and fewer with sessions
programs() {
  random_programs programs programs "${COUNT:-60000}"
  random_programs session_programs session_programs $((${COUNT:-60000} / 20))
}

# the frames of the WebSockets of examples/c, where the library wslay is there, once as they are and once with the sanitizers
websocket_frames() {
  if [ ! -e /usr/include/wslay/wslay.h ]; then
    echo "left out: the frames of WebSockets, which want wslay (Debian: apt-get install libwslay-dev)" >&2
    return
  fi
  local flags
  for flags in -O1 "-O1 -fsanitize=address,undefined -fno-sanitize-recover=all"; do
    # shellcheck disable=SC2086
    if "$cc" -std=c11 $flags -g -Wall -Wextra -Werror -Iexamples/c -o "$out/websocket_frames" tests/c/websocket_frames.c \
      examples/c/websocket_frames.c -lwslay; then
      run "websocket_frames" "$out/websocket_frames"
    else
      echo "failed websocket_frames: it was not compiled"
      bad=1
    fi
  done
}

# h3.hpp by one version of C++, where the compiler has it
cplusplus() { # VERSION FLAGS..
  local version=$1
  shift
  if ! echo 'int main() {}' | "$cxx" "-std=c++$version" "$@" -x c++ -o "$out/probe" - 2> "$out/probe.log"; then return; fi
  if "$cxx" "-std=c++$version" -O1 -g -Wall -Wextra -Wconversion -Werror "$@" -o "$out/endpoint" tests/c/endpoint.cpp "${libs[@]}"; then
    run "h3.hpp by C++$version" "$out/endpoint"
  else
    echo "failed h3.hpp: C++$version did not compile it"
    bad=1
  fi
}

# the calls of h3_cases, without the lines that ask for what the header does not show
rows() { # PROGRAM
  paste -d $'\001' crates/h3_cases/stdin crates/h3_cases/stdout | grep -aE '^(call|#) ' | grep -avE '^call (lends |goaways)' > "$out/rows"
  cut -d$'\001' -f1 "$out/rows" > "$out/rows.in"
  cut -d$'\001' -f2- "$out/rows" > "$out/rows.out"
  if "$1" < "$out/rows.in" | cmp -s - "$out/rows.out"; then
    echo "ok $2: $(grep -vc '^#' "$out/rows.in") calls answer as the rows of h3_cases say"
  else
    echo "failed $2: $("$1" < "$out/rows.in" | diff - "$out/rows.out" | head -n 6 | tr '\n' ' ')"
    bad=1
  fi
}

# the program of a page, by its stored lines
printed() { # PROGRAM, LINES, NAME
  if "$1" | cmp -s - "$2"; then
    echo "ok $3"
  else
    echo "failed $3: $("$1" | diff - "$2" | head -n 6 | tr '\n' ' ')"
    bad=1
  fi
}

run() { # NAME PROGRAM ARGUMENTS..
  local name=$1
  shift
  "$@" || {
    echo "failed $name: status $?"
    bad=1
  }
}

checks() {
  compile calls calls
  compile memory memory "${wrapped[@]}"
  compile sizes sizes "${refusing[@]}"
  compile schedules schedules
  compile unread unread
  compile frame_left frame_left
  compile small_pieces small_pieces "${wrapped[@]}"
  compile unknown unknown "${wrapped[@]}"
  compile instructions instructions
  compile arguments arguments
  compile limits limits
  compile priority priority
  compile by_priority by_priority "${refusing[@]}"
  compile given given
  compile read read
  compile past past
  compile details details
  compile defaults defaults
  compile excess excess "${wrapped[@]}"
  compile cancellations cancellations "${wrapped[@]}"
  compile shutdown shutdown
  compile strict_connection strict_connection
  compile priority_updates priority_updates "${refusing[@]}"
  compile other_settings other_settings "${refusing[@]}"
  compile other_streams other_streams "${refusing[@]}"
  compile sessions sessions "${refusing[@]}"
  compile remembered_settings remembered_settings "${refusing[@]}"
  compile streams streams "${refusing[@]}"
  compile drained drained "${refusing[@]}"
  compile over_streams over_streams "${wrapped[@]}"
  compile over_sessions over_sessions "${wrapped[@]}"
  compile datagrams datagrams
  compile lists lists
  compile never_indexed never_indexed
  compile in_memory in_memory
  compile ../../examples/quickstart quickstart "-I$lib" # includes <beanwhile/h3.h>, as its page says
  if [ "$bad" -eq 0 ]; then
    rows "$out/calls" "rows"
    run "hostile calls" python3 scripts/gate/hostile_calls.py "$out/calls" 400
    run memory "$out/memory"
    run sizes "$out/sizes"
    run schedules "$out/schedules" 0 1000
    run unread "$out/unread"
    run frame_left "$out/frame_left"
    run "small pieces" "$out/small_pieces"
    run unknown "$out/unknown"
    run instructions "$out/instructions"
    run arguments "$out/arguments" $mark
    run limits "$out/limits"
    run priority "$out/priority"
    run by_priority "$out/by_priority"
    run given "$out/given"
    run read "$out/read" 0 3000
    run past "$out/past" 1 2000
    run details "$out/details"
    run defaults "$out/defaults"
    run excess "$out/excess"
    run cancellations "$out/cancellations"
    run shutdown "$out/shutdown"
    run "strict connections" "$out/strict_connection"
    run "priority updates" "$out/priority_updates"
    run "other settings" "$out/other_settings"
    run "other streams" "$out/other_streams"
    run sessions "$out/sessions"
    run "remembered settings" "$out/remembered_settings"
    run streams "$out/streams"
    run drained "$out/drained" 0 10000
    run "streams that are over" "$out/over_streams"
    run "streams of sessions that are over" "$out/over_sessions"
    run datagrams "$out/datagrams"
    websocket_frames
    programs
    run lists "$out/lists"
    run never_indexed "$out/never_indexed"
    printed "$out/in_memory" tests/c/in_memory.stdout "in_memory: the lines of docs/GUIDE.md"
    printed "$out/quickstart" examples/quickstart.stdout "quickstart: the lines of docs/QUICKSTART.md"
  fi
  if [ "$bad" -eq 0 ] && echo 'int main(void){return 0;}' | "$cc" -x c -fsanitize=address,undefined -o "$out/probe" - 2> "$out/probe.log"; then
    sanitizers=(-fsanitize=address,undefined -fno-sanitize-recover=all)
    lend "${sanitizers[@]}"
    flags=("${sanitizers[@]}" "${lent[@]}")
    compile calls calls_checked "${flags[@]}"
    compile schedules schedules_checked "${flags[@]}"
    compile instructions instructions_checked "${flags[@]}"
    compile arguments arguments_checked "${flags[@]}"
    compile given given_checked "${flags[@]}"
    compile read read_checked "${flags[@]}"
    compile past past_checked "${flags[@]}"
    compile details details_checked "${flags[@]}"
    compile lists lists_checked "${flags[@]}"
    compile never_indexed never_indexed_checked "${flags[@]}"
    compile shutdown shutdown_checked "${flags[@]}"
    compile by_priority by_priority_checked "${flags[@]}" "${refusing[@]}"
    compile strict_connection strict_connection_checked "${flags[@]}"
    compile priority_updates priority_updates_checked "${flags[@]}" "${refusing[@]}"
    compile other_settings other_settings_checked "${flags[@]}" "${refusing[@]}"
    compile other_streams other_streams_checked "${flags[@]}" "${refusing[@]}"
    compile sessions sessions_checked "${flags[@]}" "${refusing[@]}"
    compile remembered_settings remembered_settings_checked "${flags[@]}" "${refusing[@]}"
    compile datagrams datagrams_checked "${flags[@]}"
    compile in_memory in_memory_checked "${flags[@]}"
    compile ../../examples/quickstart quickstart_checked "-I$lib" "${flags[@]}"
    if [ "$bad" -eq 0 ]; then
      rows "$out/calls_checked" "rows with sanitizers"
      run "schedules with sanitizers" "$out/schedules_checked" 1000 100
      run "instructions with sanitizers" "$out/instructions_checked"
      run "arguments with sanitizers" "$out/arguments_checked" $mark
      run "given with sanitizers" "$out/given_checked"
      run "read with sanitizers" "$out/read_checked" 3000 1000
      run "past with sanitizers" "$out/past_checked" 5000 300
      run "details with sanitizers" "$out/details_checked"
      run "lists with sanitizers" "$out/lists_checked"
      run "never_indexed with sanitizers" "$out/never_indexed_checked"
      run "shutdown with sanitizers" "$out/shutdown_checked"
      run "by_priority with sanitizers" "$out/by_priority_checked"
      run "strict connections with sanitizers" "$out/strict_connection_checked"
      run "priority updates with sanitizers" "$out/priority_updates_checked"
      run "other settings with sanitizers" "$out/other_settings_checked"
      run "other streams with sanitizers" "$out/other_streams_checked"
      run "sessions with sanitizers" "$out/sessions_checked"
      run "remembered settings with sanitizers" "$out/remembered_settings_checked"
      run "datagrams with sanitizers" "$out/datagrams_checked"
      random_programs session_programs session_programs_checked 300 "${flags[@]}"
      printed "$out/in_memory_checked" tests/c/in_memory.stdout "in_memory with sanitizers"
    printed "$out/quickstart_checked" examples/quickstart.stdout "quickstart with sanitizers"
    fi
  fi
  [ "$bad" -ne 0 ] || by_valgrind
  SEED=1 bash scripts/c/fuzz.sh 20 "$lib" || bad=1
  if command -v "$cxx" > /dev/null; then
    for version in 17 20; do cplusplus "$version"; done
    cplusplus 20 -fsanitize=address,undefined -fno-sanitize-recover=all
  else
    echo "left out: h3.hpp, which wants a C++ compiler (Debian: apt-get install g++)" >&2
  fi
  python3 scripts/c/abi.py check "$lib" || bad=1
  bash scripts/c/test-install.sh "$lib" || bad=1
  bash scripts/c/test-bindings.sh "$lib" || bad=1
  bash scripts/dist/test-packed.sh "$lib" || bad=1
  return "$bad"
}

checks | tee "$log"
status=${PIPESTATUS[0]}
passed=$(grep -cE '^ok ' "$log")
failed=$(grep -cE '^failed ' "$log")
if [ "$status" -ne 0 ] && [ "$failed" -eq 0 ]; then failed=1; fi
echo "$passed passed, $failed failed"
[ "$failed" -eq 0 ] && [ "$passed" -gt 0 ]
