# For find_package: the targets sketch_hash::sketch_hash, which is shared where a shared library is installed, and
# sketch_hash::sketch_hash_static. This file is in LIBDIR/cmake/sketch_hash, and finds the others from there.
get_filename_component(sketch_hash_libdir "${CMAKE_CURRENT_LIST_DIR}/../.." REALPATH) # /lib may be a link to /usr/lib
find_path(sketch_hash_include sketch_hash.h NO_DEFAULT_PATH NO_CMAKE_FIND_ROOT_PATH
    PATHS "${sketch_hash_libdir}/@include_from_lib@" "${sketch_hash_libdir}/../include" "${sketch_hash_libdir}/../../include")
set(sketch_hash_static libsketch_hash.a libsketch_hash_static.a sketch_hash_static.lib)
set(sketch_hash libsketch_hash.so libsketch_hash.dylib libsketch_hash.dll.a sketch_hash.lib ${sketch_hash_static})
foreach(target sketch_hash sketch_hash_static)
    foreach(file ${${target}})
        if(EXISTS "${sketch_hash_libdir}/${file}" AND NOT TARGET sketch_hash::${target})
            add_library(sketch_hash::${target} UNKNOWN IMPORTED)
            set_target_properties(sketch_hash::${target} PROPERTIES
                IMPORTED_LOCATION "${sketch_hash_libdir}/${file}"
                INTERFACE_INCLUDE_DIRECTORIES "${sketch_hash_include}")
        endif()
    endforeach()
endforeach()
if(NOT TARGET sketch_hash::sketch_hash OR NOT sketch_hash_include)
    set(sketch_hash_FOUND FALSE)
    set(sketch_hash_NOT_FOUND_MESSAGE "the library is not in ${sketch_hash_libdir}, or the header is in no include folder beside it")
endif()
unset(sketch_hash_include CACHE)
