# find_package(strm) defines two targets, each with the folder of strm.h: strm::strm, which is libstrm.so, and strm::archive, which is
# libstrm.a.
get_filename_component(strm_prefix "${CMAKE_CURRENT_LIST_DIR}/../../.." REALPATH)
if(NOT TARGET strm::strm)
  add_library(strm::strm SHARED IMPORTED)
  set_target_properties(strm::strm PROPERTIES
    IMPORTED_LOCATION "${strm_prefix}/lib/libstrm.so"
    INTERFACE_INCLUDE_DIRECTORIES "${strm_prefix}/include")
  add_library(strm::archive STATIC IMPORTED)
  set_target_properties(strm::archive PROPERTIES
    IMPORTED_LOCATION "${strm_prefix}/lib/libstrm.a"
    INTERFACE_INCLUDE_DIRECTORIES "${strm_prefix}/include")
endif()
unset(strm_prefix)
