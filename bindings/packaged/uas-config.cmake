# The targets of the library: uas::uas, which is shared, and uas::uas_static. The package may lie anywhere.
get_filename_component(uas_prefix "${CMAKE_CURRENT_LIST_DIR}" REALPATH)
get_filename_component(uas_prefix "${uas_prefix}/../../.." ABSOLUTE)

if(NOT TARGET uas::uas)
  add_library(uas::uas SHARED IMPORTED)
  set_target_properties(uas::uas PROPERTIES
    IMPORTED_LOCATION "${uas_prefix}/lib/libuas.so.@VERSION@"
    IMPORTED_SONAME "libuas.so.@MAJOR@"
    INTERFACE_INCLUDE_DIRECTORIES "${uas_prefix}/include")
endif()

if(NOT TARGET uas::uas_static)
  add_library(uas::uas_static STATIC IMPORTED)
  set_target_properties(uas::uas_static PROPERTIES
    IMPORTED_LOCATION "${uas_prefix}/lib/libuas.a"
    IMPORTED_LINK_INTERFACE_LANGUAGES C
    INTERFACE_INCLUDE_DIRECTORIES "${uas_prefix}/include")
endif()

unset(uas_prefix)
