# A project that finds the installed library by its version and by a range of versions, and builds test.c with the archive and with the
# shared library.
cmake_minimum_required(VERSION 3.19)
project(found C)
find_package(cellarcove 0.2...${VERSION} CONFIG REQUIRED)
find_package(cellarcove ${VERSION} CONFIG REQUIRED)
foreach(kind cellarcove shared)
    add_executable(of_${kind} test.c)
    target_link_libraries(of_${kind} cellarcove::${kind})
endforeach()
find_package(cellarcove 0.1...<0.2 QUIET)
if(cellarcove_FOUND)
    message(FATAL_ERROR "a range without this version")
endif()
