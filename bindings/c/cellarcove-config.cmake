# The targets cellarcove::cellarcove, the archive, and cellarcove::shared, the shared library, for C and C++.
get_filename_component(cellarcove_prefix "${CMAKE_CURRENT_LIST_DIR}/@UP@" ABSOLUTE)
set(cellarcove_library "${cellarcove_prefix}/@LIBDIR@/libcellarcove_c${CMAKE_SHARED_LIBRARY_SUFFIX}")
if(WIN32)
    set(cellarcove_library "${cellarcove_prefix}/bin/cellarcove_c.dll")
endif()
# cellarcove.hpp needs C++17. A project in C alone has no such standard.
if(CMAKE_CXX_COMPILER_LOADED AND NOT CMAKE_VERSION VERSION_LESS 3.8)
    set(cellarcove_features cxx_std_17)
endif()
if(NOT TARGET cellarcove::cellarcove)
    add_library(cellarcove::cellarcove STATIC IMPORTED)
    set_target_properties(cellarcove::cellarcove PROPERTIES
        IMPORTED_LOCATION "${cellarcove_prefix}/@LIBDIR@/libcellarcove_c.a"
        INTERFACE_COMPILE_FEATURES "${cellarcove_features}"
        INTERFACE_INCLUDE_DIRECTORIES "${cellarcove_prefix}/include")
endif()
if(NOT TARGET cellarcove::shared AND EXISTS "${cellarcove_library}")
    add_library(cellarcove::shared SHARED IMPORTED)
    set_target_properties(cellarcove::shared PROPERTIES
        IMPORTED_LOCATION "${cellarcove_library}"
        INTERFACE_COMPILE_FEATURES "${cellarcove_features}"
        INTERFACE_INCLUDE_DIRECTORIES "${cellarcove_prefix}/include")
    if(WIN32)
        set_target_properties(cellarcove::shared PROPERTIES IMPORTED_IMPLIB "${cellarcove_prefix}/@LIBDIR@/libcellarcove_c.dll.a")
    endif()
endif()
unset(cellarcove_features)
unset(cellarcove_library)
unset(cellarcove_prefix)
