# For programs in C over an unpacked package, which may be anywhere: docs/PACKAGE.md.
#   dekarino::ports      the functions of apex_ports.h
#   dekarino::apex       the standard's names as well: apex.h, whose apex.c is compiled with the program
#   dekarino::processes  the host for processes as well: bench_processes.h
get_property(dekarino_languages GLOBAL PROPERTY ENABLED_LANGUAGES)
list(FIND dekarino_languages C dekarino_at)
if(dekarino_at EQUAL -1)
  set(dekarino_FOUND FALSE)
  set(dekarino_NOT_FOUND_MESSAGE
    "its sources are C, which the project has not enabled: write project(.. LANGUAGES C CXX), or enable_language(C)")
  return()
endif()
include(CMakeFindDependencyMacro)
find_dependency(Threads)
get_filename_component(dekarino_folder "${CMAKE_CURRENT_LIST_DIR}/.." ABSOLUTE)
if(NOT TARGET dekarino::ports)
  add_library(dekarino::ports STATIC IMPORTED)
  set_target_properties(dekarino::ports PROPERTIES
    IMPORTED_LOCATION "${dekarino_folder}/libdekarino.a"
    INTERFACE_INCLUDE_DIRECTORIES "${dekarino_folder}")
  add_library(dekarino::apex INTERFACE IMPORTED)
  set_target_properties(dekarino::apex PROPERTIES
    INTERFACE_SOURCES "${dekarino_folder}/apex.c;${dekarino_folder}/apex_notes.c"
    INTERFACE_COMPILE_FEATURES c_std_11
    INTERFACE_LINK_LIBRARIES "dekarino::ports;Threads::Threads")
  add_library(dekarino::processes INTERFACE IMPORTED)
  file(GLOB dekarino_host "${dekarino_folder}/bench_*.c")
  set_target_properties(dekarino::processes PROPERTIES
    INTERFACE_SOURCES "${dekarino_host}"
    INTERFACE_LINK_LIBRARIES "dekarino::apex;${CMAKE_DL_LIBS}")
endif()
unset(dekarino_folder)
unset(dekarino_host)
