# The shared library. It exports the functions of base62.h alone. Its names on ELF and Windows have the major version, so
# that another one may be in the same program.
base62_add(base62_shared SHARED base62)
target_compile_definitions(base62_shared PRIVATE BASE62_BUILD INTERFACE BASE62_SHARED)
set_target_properties(base62_shared PROPERTIES VERSION "${PROJECT_VERSION}" SOVERSION "${PROJECT_VERSION_MAJOR}")
if(WIN32)
    set_target_properties(base62_shared PROPERTIES RUNTIME_OUTPUT_NAME "base62-${PROJECT_VERSION_MAJOR}")
elseif(UNIX AND NOT APPLE AND CMAKE_C_COMPILER_ID MATCHES "GNU|Clang")
    # A function that a minor version N adds has a symbol version of its own, so that its callers fail to load with an
    # older library. Add to the script BASE62_${PROJECT_VERSION_MAJOR}.N { global: base62_NAME; } BASE62_${PROJECT_VERSION_MAJOR};
    set(base62_script "${CMAKE_CURRENT_BINARY_DIR}/base62_shared.symbols")
    file(WRITE "${base62_script}" "BASE62_${PROJECT_VERSION_MAJOR} { global: base62_*; };\n")
    # LINKER: would part the path at a comma.
    target_link_options(base62_shared PRIVATE "SHELL:-Xlinker \"--version-script=${base62_script}\"")
    set_target_properties(base62_shared PROPERTIES LINK_DEPENDS "${base62_script}")
endif()
