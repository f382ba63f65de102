# What find_package(Yoktvarim) reads in an install, PREFIX/lib/cmake/Yoktvarim. It gives two targets, each with the header:
#     Yoktvarim::yoktvarim           the shared library
#     Yoktvarim::yoktvarim_static    the static library
get_filename_component(_yoktvarim_prefix "${CMAKE_CURRENT_LIST_DIR}/../../.." ABSOLUTE)

if(CMAKE_SYSTEM_NAME STREQUAL "Linux" AND CMAKE_SYSTEM_PROCESSOR MATCHES "^(x86_64|AMD64|amd64)$")
    set(_yoktvarim_lib "${_yoktvarim_prefix}/lib")
elseif(CMAKE_SYSTEM_NAME STREQUAL "Linux" AND CMAKE_SYSTEM_PROCESSOR MATCHES "^(aarch64|arm64)$")
    set(_yoktvarim_lib "${_yoktvarim_prefix}/lib/aarch64-linux-gnu")
else()
    set(Yoktvarim_FOUND FALSE)
    set(Yoktvarim_NOT_FOUND_MESSAGE "there is no library for ${CMAKE_SYSTEM_NAME} on ${CMAKE_SYSTEM_PROCESSOR}")
    return()
endif()

foreach(_yoktvarim_kind "yoktvarim;SHARED;so" "yoktvarim_static;STATIC;a")
    list(GET _yoktvarim_kind 0 _yoktvarim_target)
    list(GET _yoktvarim_kind 1 _yoktvarim_type)
    list(GET _yoktvarim_kind 2 _yoktvarim_ending)
    set(_yoktvarim_file "${_yoktvarim_lib}/libyoktvarim.${_yoktvarim_ending}")
    if(NOT EXISTS "${_yoktvarim_file}")
        set(Yoktvarim_FOUND FALSE)
        set(Yoktvarim_NOT_FOUND_MESSAGE
            "${_yoktvarim_file} is missing; tools/install puts it there, for ARM with the option --aarch64")
        return()
    endif()
    if(NOT TARGET Yoktvarim::${_yoktvarim_target})
        add_library(Yoktvarim::${_yoktvarim_target} ${_yoktvarim_type} IMPORTED)
        set_target_properties(Yoktvarim::${_yoktvarim_target} PROPERTIES
            IMPORTED_LOCATION "${_yoktvarim_file}"
            INTERFACE_INCLUDE_DIRECTORIES "${_yoktvarim_prefix}/include")
    endif()
endforeach()

foreach(_yoktvarim_name prefix lib kind target type ending file name)
    unset(_yoktvarim_${_yoktvarim_name})
endforeach()
