# find_package(pp) makes the targets pp::static and pp::shared, of which one may not be installed, and pp::pp: the shared
# library, or else the static one. The folder may be moved.
get_filename_component(_pp_prefix "${CMAKE_CURRENT_LIST_DIR}/../../.." ABSOLUTE)

function(_pp_add name type file)
  if(EXISTS "${_pp_prefix}/lib/${file}" AND NOT TARGET pp::${name})
    add_library(pp::${name} ${type} IMPORTED)
    set_target_properties(pp::${name} PROPERTIES
      IMPORTED_LOCATION "${_pp_prefix}/lib/${file}"
      INTERFACE_INCLUDE_DIRECTORIES "${_pp_prefix}/include")
  endif()
endfunction()

_pp_add(static STATIC libpp.a)
_pp_add(shared SHARED libpp.so.1)
if(NOT TARGET pp::pp)
  add_library(pp::pp INTERFACE IMPORTED)
  if(TARGET pp::shared)
    set_target_properties(pp::shared PROPERTIES IMPORTED_SONAME libpp.so.1)
    set_target_properties(pp::pp PROPERTIES INTERFACE_LINK_LIBRARIES pp::shared)
  else()
    set_target_properties(pp::pp PROPERTIES INTERFACE_LINK_LIBRARIES pp::static)
  endif()
endif()
