# needlemauve::board        judges table files, and asks for no memory
# needlemauve::needlemauve  all calls
# needlemauve::memory       the memory of the latter by malloc: memory.c, compiled with the program that links it
get_filename_component(_needlemauve "${CMAKE_CURRENT_LIST_DIR}/../../.." ABSOLUTE)
if(NOT TARGET needlemauve::needlemauve)
  add_library(needlemauve::board STATIC IMPORTED)
  set_target_properties(needlemauve::board PROPERTIES
    IMPORTED_LOCATION "${_needlemauve}/lib/libneedlemauve_board.a"
    INTERFACE_INCLUDE_DIRECTORIES "${_needlemauve}/include")
  add_library(needlemauve::needlemauve STATIC IMPORTED)
  set_target_properties(needlemauve::needlemauve PROPERTIES
    IMPORTED_LOCATION "${_needlemauve}/lib/libneedlemauve.a"
    INTERFACE_INCLUDE_DIRECTORIES "${_needlemauve}/include"
    INTERFACE_LINK_LIBRARIES needlemauve::board)
  add_library(needlemauve::memory INTERFACE IMPORTED)
  set_target_properties(needlemauve::memory PROPERTIES
    INTERFACE_SOURCES "${_needlemauve}/share/needlemauve/memory.c")
endif()
unset(_needlemauve)
