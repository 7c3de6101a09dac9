# find_package(igbezolum): the targets igbezolum::igbezolum, the archive, and igbezolum::shared, the shared library, where it was built.
get_filename_component(_igbezolum_prefix "${CMAKE_CURRENT_LIST_DIR}/../../.." ABSOLUTE)
if(NOT TARGET igbezolum::igbezolum)
  add_library(igbezolum::igbezolum STATIC IMPORTED)
  set_target_properties(igbezolum::igbezolum PROPERTIES
    IMPORTED_LOCATION "${_igbezolum_prefix}/lib/libigbezolum.a"
    IMPORTED_LINK_INTERFACE_LANGUAGES C
    INTERFACE_INCLUDE_DIRECTORIES "${_igbezolum_prefix}/include")
endif()
if(NOT TARGET igbezolum::shared AND EXISTS "${_igbezolum_prefix}/lib/libigbezolum.so.0")
  add_library(igbezolum::shared SHARED IMPORTED)
  set_target_properties(igbezolum::shared PROPERTIES
    IMPORTED_LOCATION "${_igbezolum_prefix}/lib/libigbezolum.so.0"
    IMPORTED_SONAME libigbezolum.so.0
    INTERFACE_INCLUDE_DIRECTORIES "${_igbezolum_prefix}/include")
endif()
unset(_igbezolum_prefix)
