# find_package(star): the targets star::star, the shared library, and star::static, the static one.
# The paths are found from where this file stands, so that the installed folders can be moved.
get_filename_component(star_PREFIX "${CMAKE_CURRENT_LIST_DIR}/../../.." ABSOLUTE)
set(star_FOLDERS "${star_PREFIX}/lib/${CMAKE_LIBRARY_ARCHITECTURE}" "${star_PREFIX}/lib")

foreach(star_NAME IN ITEMS star static)
    if(NOT TARGET star::${star_NAME})
        set(star_FILE "libstar.a")
        set(star_KIND STATIC)
        if(star_NAME STREQUAL "star")
            set(star_FILE "libstar.so")
            set(star_KIND SHARED)
        endif()
        find_file(star_${star_NAME}_FILE "${star_FILE}" PATHS ${star_FOLDERS} NO_DEFAULT_PATH)
        mark_as_advanced(star_${star_NAME}_FILE)
        if(star_${star_NAME}_FILE)
            add_library(star::${star_NAME} ${star_KIND} IMPORTED)
            set_target_properties(star::${star_NAME} PROPERTIES
                IMPORTED_LOCATION "${star_${star_NAME}_FILE}"
                INTERFACE_INCLUDE_DIRECTORIES "${star_PREFIX}/include")
        endif()
    endif()
endforeach()

if(NOT TARGET star::star)
    set(star_FOUND FALSE)
endif()
