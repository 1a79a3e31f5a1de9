#!/usr/bin/env bash
# package_file.sh pc|cmake FOLDER LIBRARIES HEADERS [unproved]: writes the package files for pkg-config or for CMake into FOLDER, for libraries and a header
# that lie in the folders LIBRARIES and HEADERS (beanwhile/h3.h is below it), given from FOLDER. They name no absolute path, so all of it may be moved.
# Programs may write <beanwhile/h3.h> or <h3.h>. The version is that of the header.
set -euo pipefail
kind=$1
folder=$2
libraries=${3/#./\/.}
headers=${4/#./\/.}
[ "$3" != . ] || libraries=""
[ "$4" != . ] || headers=""
version=$(sed -n 's/^#define H3_VERSION_TEXT "\(.*\)"$/\1/p' "$(dirname "$0")/../../include/h3.h")
description="an HTTP/3 connection core, proved (RFC 9114, RFC 9204)"
suffix=""
unproved=FALSE
if [ "${5:-}" = unproved ]; then
  description="an HTTP/3 connection core, UNPROVED: built without its proofs (RFC 9114, RFC 9204)"
  suffix=-unproved
  unproved=TRUE
fi

# a package of pkg-config: its name, and what it links with
pc_of() {
  cat > "$folder/$1.pc" <<END
libdir=\${pcfiledir}$libraries
includedir=\${pcfiledir}$headers

Name: $1
Description: $description
Version: $version$suffix
Cflags: -I\${includedir} -I\${includedir}/beanwhile
Libs: $2
END
}

write_pc() {
  pc_of beanwhile-h3 '-L${libdir} -lbeanwhile_h3 -lbeanwhile_h3_shim'
  pc_of beanwhile-h3-shared '-L${libdir}/beanwhile-h3 -lbeanwhile_h3'
}

write_cmake() {
  cat > "$folder/beanwhile-h3-config.cmake" <<END
# find_package(beanwhile-h3 CONFIG) gives the targets beanwhile::h3, the archive, and beanwhile::shared, the shared library
set(beanwhile-h3_UNPROVED $unproved)
if(beanwhile-h3_UNPROVED)
  message(STATUS "beanwhile-h3: built without its proofs")
endif()
if(NOT TARGET beanwhile::h3)
  add_library(beanwhile::h3 STATIC IMPORTED)
  set_target_properties(beanwhile::h3 PROPERTIES
    IMPORTED_LOCATION "\${CMAKE_CURRENT_LIST_DIR}$libraries/libbeanwhile_h3.a"
    INTERFACE_INCLUDE_DIRECTORIES "\${CMAKE_CURRENT_LIST_DIR}$headers;\${CMAKE_CURRENT_LIST_DIR}$headers/beanwhile"
    INTERFACE_LINK_LIBRARIES "\${CMAKE_CURRENT_LIST_DIR}$libraries/libbeanwhile_h3_shim.a")
endif()
if(NOT TARGET beanwhile::shared)
  add_library(beanwhile::shared SHARED IMPORTED)
  set_target_properties(beanwhile::shared PROPERTIES
    IMPORTED_LOCATION "\${CMAKE_CURRENT_LIST_DIR}$libraries/libbeanwhile_h3.so.${version%%.*}"
    IMPORTED_SONAME "libbeanwhile_h3.so.${version%%.*}"
    INTERFACE_INCLUDE_DIRECTORIES "\${CMAKE_CURRENT_LIST_DIR}$headers;\${CMAKE_CURRENT_LIST_DIR}$headers/beanwhile")
endif()
END
  cat > "$folder/beanwhile-h3-config-version.cmake" <<END
set(PACKAGE_VERSION "$version")
if(PACKAGE_FIND_VERSION VERSION_GREATER PACKAGE_VERSION OR NOT "\${PACKAGE_FIND_VERSION_MAJOR}" STREQUAL "${version%%.*}")
  set(PACKAGE_VERSION_COMPATIBLE FALSE)
else()
  set(PACKAGE_VERSION_COMPATIBLE TRUE)
  if(PACKAGE_FIND_VERSION VERSION_EQUAL PACKAGE_VERSION)
    set(PACKAGE_VERSION_EXACT TRUE)
  endif()
endif()
END
}

mkdir -p "$folder"
"write_$kind"
