# The library for a processor without an operating system: find_package(fttcan CONFIG REQUIRED), and then link fttcan::fttcan.
# fttcan::memory has the memory functions, for a program that is linked with no C library.
get_filename_component(fttcan_prefix "${CMAKE_CURRENT_LIST_DIR}/../../.." ABSOLUTE)
foreach(part fttcan memory)
    if(NOT TARGET fttcan::${part})
        add_library(fttcan::${part} STATIC IMPORTED)
        set_target_properties(fttcan::${part} PROPERTIES INTERFACE_INCLUDE_DIRECTORIES "${fttcan_prefix}/include")
    endif()
endforeach()
set_target_properties(fttcan::fttcan PROPERTIES IMPORTED_LOCATION "${fttcan_prefix}/lib/libfttcan.a")
set_target_properties(fttcan::memory PROPERTIES IMPORTED_LOCATION "${fttcan_prefix}/lib/libfttcan_memory.a")
