#!/usr/bin/env bash
# test-install.sh FOLDER: is the library for C found as a program's build finds it? By pkg-config and by CMake, in FOLDER and where `make
# install` puts it (a library without proofs where that is asked for), a program of tests/c is built over it and run. One line 'ok NAME' or
# 'failed NAME' each; what the machine lacks is left out.
set -uo pipefail
cd "$(dirname "$0")/../.."
folder=$(realpath "$1")
work=$(mktemp -d)
trap 'rm -rf "$work"' EXIT
bad=0

check() { # NAME COMMAND..
  local name=$1
  shift
  if "$@" > "$work/log" 2>&1; then
    echo "ok $name"
  else
    echo "failed $name: $(tail -n 3 "$work/log" | tr '\n' ' ')"
    bad=1
  fi
}

# does the program stand on the shared library (1), or not (0)? By the name that a library is looked for by
is_shared() {
  [ "$(readelf -d "$1" | grep -c 'NEEDED.*libbeanwhile_h3')" -eq "$2" ]
}

by_pkg_config() { # FOLDER of the package file
  local flags
  flags=$(PKG_CONFIG_PATH=$1 pkg-config --cflags --libs beanwhile-h3) &&
    "${CC:-cc}" -std=c11 -o "$work/program" tests/c/in_memory.c $flags && "$work/program" && is_shared "$work/program" 0
}

shared_by_pkg_config() { # FOLDER of the package file
  local flags folder
  flags=$(PKG_CONFIG_PATH=$1 pkg-config --cflags --libs beanwhile-h3-shared) &&
    folder=$(PKG_CONFIG_PATH=$1 pkg-config --variable=libdir beanwhile-h3-shared) &&
    "${CC:-cc}" -std=c11 -o "$work/program" tests/c/in_memory.c $flags -Wl,-rpath,"$folder" && "$work/program" && is_shared "$work/program" 1
}

by_cmake() { # FOLDER that CMake looks in, and h3 or shared
  rm -rf "$work/cmake"
  mkdir -p "$work/cmake"
  cat > "$work/cmake/CMakeLists.txt" <<END
cmake_minimum_required(VERSION 3.10)
project(program C)
find_package(beanwhile-h3 1.0 CONFIG REQUIRED)
add_executable(program "$PWD/tests/c/in_memory.c")
target_link_libraries(program PRIVATE beanwhile::$2)
END
  cmake -S "$work/cmake" -B "$work/cmake/out" "-DCMAKE_PREFIX_PATH=$1" && cmake --build "$work/cmake/out" && "$work/cmake/out/program" &&
    is_shared "$work/cmake/out/program" "$([ "$2" = h3 ] && echo 0 || echo 1)"
}

found() { # NAME, FOLDER of the package file, FOLDER that CMake looks in
  if command -v pkg-config > /dev/null; then
    check "$1 by pkg-config" by_pkg_config "$2"
    check "$1 by pkg-config, shared" shared_by_pkg_config "$2"
  fi
  if command -v cmake > /dev/null; then
    check "$1 by CMake" by_cmake "$3" h3
    check "$1 by CMake, shared" by_cmake "$3" shared
  fi
}

found "library in ${folder##*/}" "$folder" "$folder"
refuses_unproved() {
  ! env -u UNPROVED LIB="$folder" DESTDIR="$work/refused" PREFIX=/opt/h3 bash scripts/c/install.sh && [ ! -e "$work/refused" ]
}
if [ -e "$folder/UNPROVED" ]; then
  check "make install refuses a library without proofs" refuses_unproved
  export UNPROVED=1
fi
check "make install" env LIB="$folder" DESTDIR="$work/stage" PREFIX=/opt/h3 bash scripts/c/install.sh
mv "$work/stage/opt/h3" "$work/moved"
found "library installed" "$work/moved/lib/pkgconfig" "$work/moved"
exit "$bad"
