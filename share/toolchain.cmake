# For CMake: -DCMAKE_TOOLCHAIN_FILE=PREFIX/share/spbags/toolchain.cmake compiles a project with the tracer, as does
# share/toolchain.cmake of a clone. find_package(TBB) finds the tracer's headers then, by TBBConfig.cmake beside this file.
set(SPBAGS_BIN "${CMAKE_CURRENT_LIST_DIR}/../tracer")
if(NOT EXISTS "${SPBAGS_BIN}/spbags-cc")
    set(SPBAGS_BIN "${CMAKE_CURRENT_LIST_DIR}/../../bin")
endif()
get_filename_component(SPBAGS_BIN "${SPBAGS_BIN}" ABSOLUTE)
set(CMAKE_C_COMPILER "${SPBAGS_BIN}/spbags-cc")
set(CMAKE_CXX_COMPILER "${SPBAGS_BIN}/spbags-c++")
set(TBB_DIR "${CMAKE_CURRENT_LIST_DIR}")
