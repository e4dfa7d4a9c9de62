# CMake's package of the release. It finds everything from the folder that it lies in, so a clone may lie anywhere:
#
#     find_package(lot 0.4 CONFIG REQUIRED PATHS /the/clone/dist)
#     target_link_libraries(program PRIVATE lot::lot)
#
# The target's processor is CMAKE_SYSTEM_PROCESSOR. Where there is no archive for it, the package isn't found. The
# archives are for Linux, and for a program without an operating system, whose CMAKE_SYSTEM_NAME is Generic.
get_filename_component(_lot_dist "${CMAKE_CURRENT_LIST_DIR}" DIRECTORY)
get_filename_component(_lot_top "${_lot_dist}" DIRECTORY)

if(CMAKE_SYSTEM_PROCESSOR MATCHES "^(x86_64|amd64|AMD64)$")
    set(_lot_processor x86_64)
elseif(CMAKE_SYSTEM_PROCESSOR MATCHES "^(aarch64|arm64)$")
    set(_lot_processor aarch64)
else()
    set(_lot_processor "${CMAKE_SYSTEM_PROCESSOR}")
endif()

set(_lot_archive "${_lot_dist}/${_lot_processor}-linux/liblot.a")
set(lot_FOUND TRUE)
if(NOT CMAKE_SYSTEM_NAME MATCHES "^(Linux|Generic)" OR NOT EXISTS "${_lot_archive}")
    set(lot_FOUND FALSE)
    set(lot_NOT_FOUND_MESSAGE "lot has no archive for ${CMAKE_SYSTEM_NAME} on ${_lot_processor}")
elseif(NOT TARGET lot::lot)
    add_library(lot::lot STATIC IMPORTED)
    set_target_properties(
        lot::lot
        PROPERTIES
            IMPORTED_LOCATION "${_lot_archive}"
            IMPORTED_LINK_INTERFACE_LANGUAGES C
            INTERFACE_INCLUDE_DIRECTORIES "${_lot_top}/bindings/c"
    )
endif()

unset(_lot_archive)
unset(_lot_dist)
unset(_lot_processor)
unset(_lot_top)
