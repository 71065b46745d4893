# Gives the target ponguriena::ponguriena, by where this file stands.
get_filename_component(ponguriena_prefix "${CMAKE_CURRENT_LIST_DIR}/../../.." ABSOLUTE)
if(NOT TARGET ponguriena::ponguriena)
  add_library(ponguriena::ponguriena STATIC IMPORTED)
  set_target_properties(
    ponguriena::ponguriena
    PROPERTIES IMPORTED_LOCATION "${ponguriena_prefix}/lib/libponguriena.a"
               INTERFACE_INCLUDE_DIRECTORIES "${ponguriena_prefix}/include"
               IMPORTED_LINK_INTERFACE_LANGUAGES C)
endif()
unset(ponguriena_prefix)
