# Gives `find_package(palgwern)` the archive and its header as the target palgwern::palgwern.
# The archive is that of target/staticlib, or of the folder that the variable PALGWERN_LIBRARY of CMake or of the environment names.
if(NOT PALGWERN_LIBRARY AND DEFINED ENV{PALGWERN_LIBRARY})
    set(PALGWERN_LIBRARY "$ENV{PALGWERN_LIBRARY}")
endif()
if(NOT PALGWERN_LIBRARY)
    set(PALGWERN_LIBRARY "${CMAKE_CURRENT_LIST_DIR}/../target/staticlib")
endif()
get_filename_component(palgwern_archive "${PALGWERN_LIBRARY}/libpalgwern.a" ABSOLUTE)
if(NOT EXISTS "${palgwern_archive}")
    set(palgwern_FOUND FALSE)
    set(palgwern_NOT_FOUND_MESSAGE "${palgwern_archive} is missing; `tools/make palgwern` makes it, and PALGWERN_LIBRARY names another folder")
    return()
endif()
if(NOT TARGET palgwern::palgwern)
    add_library(palgwern::palgwern STATIC IMPORTED)
    set_target_properties(palgwern::palgwern PROPERTIES
        IMPORTED_LOCATION "${palgwern_archive}"
        INTERFACE_INCLUDE_DIRECTORIES "${CMAKE_CURRENT_LIST_DIR}")
endif()
