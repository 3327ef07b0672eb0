# What is installed: the libraries, the header, base62.pc, the CMake package and the pages. All may be moved together.
include(CMakePackageConfigHelpers)

install(TARGETS ${base62_targets} EXPORT base62-targets
    RUNTIME DESTINATION "${CMAKE_INSTALL_BINDIR}"
    LIBRARY DESTINATION "${CMAKE_INSTALL_LIBDIR}"
    ARCHIVE DESTINATION "${CMAKE_INSTALL_LIBDIR}")
install(FILES base62.h DESTINATION "${CMAKE_INSTALL_INCLUDEDIR}")

set(base62_package "${CMAKE_INSTALL_LIBDIR}/cmake/base62")
install(EXPORT base62-targets NAMESPACE base62:: DESTINATION "${base62_package}")
configure_package_config_file(cmake/base62-config.cmake.in "${CMAKE_CURRENT_BINARY_DIR}/base62-config.cmake"
    INSTALL_DESTINATION "${base62_package}")
write_basic_package_version_file("${CMAKE_CURRENT_BINARY_DIR}/base62-config-version.cmake"
    COMPATIBILITY SameMajorVersion)
install(FILES "${CMAKE_CURRENT_BINARY_DIR}/base62-config.cmake"
    "${CMAKE_CURRENT_BINARY_DIR}/base62-config-version.cmake" DESTINATION "${base62_package}")

# It names all folders relative to its own.
set(base62_pkgconfig "${CMAKE_INSTALL_FULL_LIBDIR}/pkgconfig")
file(RELATIVE_PATH base62_to_prefix "${base62_pkgconfig}" "${CMAKE_INSTALL_PREFIX}")
file(RELATIVE_PATH base62_to_include "${base62_pkgconfig}" "${CMAKE_INSTALL_FULL_INCLUDEDIR}")
configure_file(cmake/base62.pc.in "${CMAKE_CURRENT_BINARY_DIR}/base62.pc" @ONLY)
install(FILES "${CMAKE_CURRENT_BINARY_DIR}/base62.pc" DESTINATION "${CMAKE_INSTALL_LIBDIR}/pkgconfig")

set(base62_pages "${CMAKE_INSTALL_DATAROOTDIR}/doc/base62")
if(base62_is_top)
    set(base62_pages "${CMAKE_INSTALL_DOCDIR}")
endif()
install(FILES LICENSE README.md DESTINATION "${base62_pages}")
# A copy of this folder alone may lie beside the changes of another project.
if(EXISTS "${CMAKE_CURRENT_SOURCE_DIR}/../tests/values.tsv")
    install(FILES ../CHANGELOG.md DESTINATION "${base62_pages}")
endif()

if(base62_is_top)
    string(TOLOWER "${CMAKE_SYSTEM_NAME}-${CMAKE_SYSTEM_PROCESSOR}" CPACK_SYSTEM_NAME)
    if(NOT CPACK_GENERATOR AND WIN32)
        set(CPACK_GENERATOR ZIP)
    elseif(NOT CPACK_GENERATOR)
        set(CPACK_GENERATOR TGZ)
    endif()
    include(CPack)
endif()
