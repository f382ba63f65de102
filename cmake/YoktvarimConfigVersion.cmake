# Says to find_package whether this package has the version that is asked for. The header of the install has the version. Before 1.0
# another second number may change calls, so it has to be the same one.
file(STRINGS "${CMAKE_CURRENT_LIST_DIR}/../../../include/yoktvarim.h" PACKAGE_VERSION REGEX "^#define YOKTVARIM_VERSION ")
string(REGEX REPLACE ".*\"(.*)\".*" "\\1" PACKAGE_VERSION "${PACKAGE_VERSION}")

set(PACKAGE_VERSION_COMPATIBLE TRUE)
if(PACKAGE_FIND_VERSION)
    string(REGEX MATCH "^[0-9]+(\\.[0-9]+)?" _yoktvarim_asked "${PACKAGE_FIND_VERSION}")
    if(NOT "${PACKAGE_VERSION}." MATCHES "^${_yoktvarim_asked}\\." OR PACKAGE_VERSION VERSION_LESS PACKAGE_FIND_VERSION)
        set(PACKAGE_VERSION_COMPATIBLE FALSE)
    elseif(PACKAGE_VERSION VERSION_EQUAL PACKAGE_FIND_VERSION)
        set(PACKAGE_VERSION_EXACT TRUE)
    endif()
    unset(_yoktvarim_asked)
endif()
if(CMAKE_SIZEOF_VOID_P AND NOT CMAKE_SIZEOF_VOID_P EQUAL 8)
    set(PACKAGE_VERSION "${PACKAGE_VERSION} (64 bits)")
    set(PACKAGE_VERSION_UNSUITABLE TRUE)
endif()
