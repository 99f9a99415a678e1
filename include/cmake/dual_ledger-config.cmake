# The proved dual ledger for CMake:
#
#   find_package(dual_ledger REQUIRED CONFIG PATHS .../include/cmake)
#   target_link_libraries(mine dual_ledger::dual_ledger)
#
# libdual_ledger.a is looked for in the folder that DUAL_LEDGER_LIB names, a variable of CMake's or of the environment, else where rust/archive puts it.
get_filename_component(_dual_ledger_root "${CMAKE_CURRENT_LIST_DIR}/../.." ABSOLUTE)
if(NOT DUAL_LEDGER_LIB)
  if(DEFINED ENV{DUAL_LEDGER_LIB})
    set(DUAL_LEDGER_LIB "$ENV{DUAL_LEDGER_LIB}")
  else()
    set(DUAL_LEDGER_LIB "${_dual_ledger_root}/target/staticlib")
  endif()
endif()
get_filename_component(_dual_ledger_archive "${DUAL_LEDGER_LIB}/libdual_ledger.a" ABSOLUTE)
if(NOT EXISTS "${_dual_ledger_archive}")
  set(dual_ledger_FOUND FALSE)
  set(dual_ledger_NOT_FOUND_MESSAGE "no ${_dual_ledger_archive}: rust/archive makes it, or DUAL_LEDGER_LIB names its folder")
elseif(NOT TARGET dual_ledger::dual_ledger)
  set(dual_ledger_FOUND TRUE)
  set(dual_ledger_VERSION 0.2.0)
  add_library(dual_ledger::dual_ledger STATIC IMPORTED)
  set_target_properties(dual_ledger::dual_ledger PROPERTIES
    IMPORTED_LOCATION "${_dual_ledger_archive}"
    INTERFACE_INCLUDE_DIRECTORIES "${_dual_ledger_root}/include")
endif()
