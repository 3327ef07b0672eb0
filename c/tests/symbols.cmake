# Which names the libraries have:
#
#     cmake -DNM=nm -DHEADER=FILE -DMAJOR=N -DMINOR=N -DSTATIC=FILE [-DSHARED=FILE -DOVER_STATIC=FILE] [-DIMPORT=FILE -DDLL=NAME]
#         -P symbols.cmake
#
# SHARED is a shared library of ELF, OVER_STATIC one that calls the static library, and IMPORT the import library of a DLL.
cmake_policy(SET CMP0007 NEW)

# Sets symbols to the symbols that nm prints, each as TYPE NAME.
function(find_symbols)
    execute_process(COMMAND "${NM}" --format=posix ${ARGN} OUTPUT_VARIABLE text RESULT_VARIABLE status)
    if(NOT status EQUAL 0)
        message(FATAL_ERROR "nm ${ARGN}: ${status}")
    endif()
    string(REPLACE "\n" ";" lines "${text}")
    list(FILTER lines INCLUDE REGEX "^[^ ]+ [A-Za-z]( |$)")
    list(TRANSFORM lines REPLACE "^([^ ]+) ([A-Za-z]).*" "\\2 \\1")
    set(symbols "${lines}" PARENT_SCOPE)
endfunction()

function(expect_same what names wanted)
    set(more "${names}")
    list(REMOVE_ITEM more "" ${wanted})
    list(REMOVE_ITEM wanted "" ${names})
    if(more OR wanted)
        message(FATAL_ERROR "${what}: missing: ${wanted}; unexpected: ${more}")
    endif()
endfunction()

file(STRINGS "${HEADER}" lines REGEX "^(BASE62_API |BASE62_CHECK_RESULT )*[a-z0-9_]+ base62_[a-z0-9_]+\\(")
string(REGEX MATCHALL "base62_[a-z0-9_]+\\(" functions "${lines}")
string(REPLACE "(" "" functions "${functions}")
if(NOT functions)
    message(FATAL_ERROR "the header declares no functions")
endif()

find_symbols(--extern-only --defined-only "${STATIC}")
list(FILTER symbols EXCLUDE REGEX "^T __x86.get_pc_thunk") # Those of GCC for i686.
string(REPLACE "T " "" symbols "${symbols}")
expect_same("functions of the static library" "${symbols}" "${functions}")

if(SHARED)
    find_symbols(--dynamic --defined-only "${SHARED}")
    list(FILTER symbols EXCLUDE REGEX "^A BASE62_")
    set(first "${symbols}")
    list(FILTER first INCLUDE REGEX "@@BASE62_${MAJOR}$")
    list(LENGTH first count)
    if(MINOR AND NOT count EQUAL 25)
        message(FATAL_ERROR "${count} functions, not the 25 of ${MAJOR}.0, have the symbol version BASE62_${MAJOR}. A function that "
            "a minor version adds needs another one, in cmake/shared.cmake. These have it: ${first}")
    endif()
    list(TRANSFORM symbols REPLACE "^T (.*)@@BASE62_${MAJOR}(\\.[0-9]+)?$" "\\1")
    expect_same("functions of the shared library" "${symbols}" "${functions}")
    find_symbols(--dynamic "${OVER_STATIC}")
    list(FILTER symbols INCLUDE REGEX "base62_")
    expect_same("exports or imports of a library over the static one" "${symbols}" "")
endif()

if(IMPORT)
    find_symbols(--extern-only --defined-only "${IMPORT}")
    list(FILTER symbols INCLUDE REGEX "^T ")
    string(REPLACE "T " "" symbols "${symbols}")
    expect_same("functions of the DLL" "${symbols}" "${functions}")
    expect_same("the name of the DLL" "${DLL}" "libbase62-${MAJOR}.dll")
endif()
