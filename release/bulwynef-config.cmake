# find_package(bulwynef) gives bulwynef::bulwynef, the shared library, and bulwynef::static.
get_filename_component(_bulwynef_lib "${CMAKE_CURRENT_LIST_DIR}/../.." ABSOLUTE)
get_filename_component(_bulwynef_include "${CMAKE_CURRENT_LIST_DIR}/@INCLUDEDIR@" ABSOLUTE)
if(NOT TARGET bulwynef::bulwynef)
  add_library(bulwynef::bulwynef SHARED IMPORTED)
  set_target_properties(bulwynef::bulwynef PROPERTIES
    IMPORTED_LOCATION "${_bulwynef_lib}/libbulwynef.so.1" IMPORTED_SONAME "libbulwynef.so.1" INTERFACE_INCLUDE_DIRECTORIES "${_bulwynef_include}")
  add_library(bulwynef::static STATIC IMPORTED)
  set_target_properties(bulwynef::static PROPERTIES
    IMPORTED_LOCATION "${_bulwynef_lib}/libbulwynef.a" INTERFACE_INCLUDE_DIRECTORIES "${_bulwynef_include}")
endif()
unset(_bulwynef_lib)
unset(_bulwynef_include)
