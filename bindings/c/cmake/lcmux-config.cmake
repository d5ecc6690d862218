# For find_package(lcmux CONFIG): the imported targets lcmux::lcmux, the shared library, and lcmux::static. This file lies
# in lib/cmake/lcmux, and all that it names beside that, wherever it is. CMake may find it by a link, such as /lib to
# /usr/lib, beside which there is nothing else.
get_filename_component(_lcmux_prefix "${CMAKE_CURRENT_LIST_DIR}" REALPATH)
get_filename_component(_lcmux_prefix "${_lcmux_prefix}/../../.." ABSOLUTE)

if(NOT TARGET lcmux::lcmux)
  add_library(lcmux::lcmux SHARED IMPORTED)
  set_target_properties(lcmux::lcmux PROPERTIES
    IMPORTED_LOCATION "${_lcmux_prefix}/lib/liblcmux.so"
    INTERFACE_INCLUDE_DIRECTORIES "${_lcmux_prefix}/include")
  add_library(lcmux::static STATIC IMPORTED)
  set_target_properties(lcmux::static PROPERTIES
    IMPORTED_LOCATION "${_lcmux_prefix}/lib/liblcmux.a"
    INTERFACE_INCLUDE_DIRECTORIES "${_lcmux_prefix}/include")
endif()

unset(_lcmux_prefix)
