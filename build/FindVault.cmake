# Finds the command `vault`, and gives rules for programs in Vault:
#
#   find_package(Vault REQUIRED)                                                 with this file's folder in CMAKE_MODULE_PATH
#   vault_module(NAME disk INTERFACE interface.v SOURCE disk.v)                  tests a module beside its interface
#   vault_program(NAME driver SOURCE driver.v)                                   checks a program and writes driver.c
#   vault_program(NAME service INTERFACE interface.v MODULES disk.v user.v)      links two modules and writes service.c
#
#   vault_executable(NAME driver PROGRAM driver HOST posix.c)                    compiles driver.c with the runtime and a host
#
# Each is a target of `all`; the text of a program NAME is the target NAME-text. A C file is verified from its own text before it counts as made.
# HOST is a C file of your own, or one of the runtime's: replay.c, posix.c. Vault_EXECUTABLE is the command, Vault_VERSION its version,
# Vault_RUNTIME the folder of the runtime.

find_program(Vault_EXECUTABLE vault DOC "The command vault")
if(Vault_EXECUTABLE)
  execute_process(COMMAND "${Vault_EXECUTABLE}" --version OUTPUT_VARIABLE _vault_version ERROR_QUIET)
  string(REGEX MATCH "[0-9]+(\\.[0-9]+)+" Vault_VERSION "${_vault_version}")
endif()
include(FindPackageHandleStandardArgs)
find_package_handle_standard_args(Vault REQUIRED_VARS Vault_EXECUTABLE VERSION_VAR Vault_VERSION)

set(Vault_RUNTIME "${CMAKE_CURRENT_LIST_DIR}/../runtime" CACHE PATH "The folder of the runtime of C texts")

# Makes a file of what the command writes, only if it succeeds and what it writes is verified.
set(_vault_writes "${CMAKE_CURRENT_LIST_DIR}/VaultWrites.cmake")

# The paths of sources, below the current source folder.
function(_vault_sources result)
  set(paths "")
  foreach(source IN LISTS ARGN)
    get_filename_component(path "${source}" ABSOLUTE)
    list(APPEND paths "${path}")
  endforeach()
  set(${result} "${paths}" PARENT_SCOPE)
endfunction()

function(vault_module)
  cmake_parse_arguments(PARSE_ARGV 0 given "" "NAME;INTERFACE;SOURCE" "")
  _vault_sources(files "${given_INTERFACE}" "${given_SOURCE}")
  set(tested "${CMAKE_CURRENT_BINARY_DIR}/${given_NAME}.tested")
  add_custom_command(
    OUTPUT "${tested}"
    COMMAND "${Vault_EXECUTABLE}" module ${files}
    COMMAND "${CMAKE_COMMAND}" -E touch "${tested}"
    DEPENDS ${files} VERBATIM
    COMMENT "Testing the module ${given_NAME}")
  add_custom_target(${given_NAME} ALL DEPENDS "${tested}")
endfunction()

function(vault_program)
  cmake_parse_arguments(PARSE_ARGV 0 given "" "NAME;SOURCE;INTERFACE" "MODULES")
  if(given_SOURCE)
    set(words emit)
    _vault_sources(files "${given_SOURCE}")
  else()
    set(words link)
    _vault_sources(files "${given_INTERFACE}" ${given_MODULES})
  endif()
  set(written "${CMAKE_CURRENT_BINARY_DIR}/${given_NAME}.c")
  add_custom_command(
    OUTPUT "${written}"
    COMMAND "${CMAKE_COMMAND}" "-Dcommand=${Vault_EXECUTABLE}" "-Dwritten=${written}" -P "${_vault_writes}" -- ${words} ${files}
    DEPENDS ${files} VERBATIM
    COMMENT "Writing ${given_NAME}.c")
  add_custom_target(${given_NAME}-text ALL DEPENDS "${written}")
endfunction()

function(vault_executable)
  cmake_parse_arguments(PARSE_ARGV 0 given "" "NAME;PROGRAM" "HOST")
  set(sources vault_main.c vault_rt.c numbers.c)
  list(TRANSFORM sources PREPEND "${Vault_RUNTIME}/")
  foreach(host IN LISTS given_HOST)
    get_filename_component(path "${host}" ABSOLUTE)
    if(NOT EXISTS "${path}" AND EXISTS "${Vault_RUNTIME}/${host}")
      set(path "${Vault_RUNTIME}/${host}")
    endif()
    list(APPEND sources "${path}")
  endforeach()
  set(text "${CMAKE_CURRENT_BINARY_DIR}/${given_PROGRAM}.c")
  add_executable(${given_NAME} ${sources})
  add_dependencies(${given_NAME} ${given_PROGRAM}-text)
  set_property(SOURCE "${Vault_RUNTIME}/vault_main.c" APPEND PROPERTY OBJECT_DEPENDS "${text}")
  target_include_directories(${given_NAME} PRIVATE "${Vault_RUNTIME}")
  target_compile_definitions(${given_NAME} PRIVATE "VAULT_PROGRAM=\"${text}\"")
endfunction()
