# find_package(lockup) gives lockup::lockup, the shared library, and lockup::static, the archive.
get_filename_component(lockup_prefix "${CMAKE_CURRENT_LIST_DIR}/../../.." ABSOLUTE)
if(NOT TARGET lockup::lockup)
    add_library(lockup::lockup SHARED IMPORTED)
    add_library(lockup::static STATIC IMPORTED)
    set_target_properties(lockup::lockup PROPERTIES IMPORTED_LOCATION "${lockup_prefix}/lib/liblockup.so")
    set_target_properties(lockup::static PROPERTIES IMPORTED_LOCATION "${lockup_prefix}/lib/liblockup.a")
    set_target_properties(lockup::lockup lockup::static PROPERTIES INTERFACE_INCLUDE_DIRECTORIES "${lockup_prefix}/include")
endif()
