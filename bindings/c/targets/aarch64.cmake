# ARM64, under qemu. If the environment's AARCH64_ROOT names a folder with Debian's packages for ARM64, programs use
# their libraries.
set(CMAKE_SYSTEM_NAME Linux)
set(CMAKE_SYSTEM_PROCESSOR aarch64) # ARM64, by qemu
set(CMAKE_C_COMPILER aarch64-linux-gnu-gcc)
set(ROOT /usr/aarch64-linux-gnu)
if(DEFINED ENV{AARCH64_ROOT})
    set(ROOT $ENV{AARCH64_ROOT})
    set(PEER ${ROOT}/usr/lib/aarch64-linux-gnu/libargon2.so.1)
endif()
# (clearing.c searches the whole stack, which would be 8 MiB under qemu)
set(CMAKE_CROSSCOMPILING_EMULATOR qemu-aarch64-static -s 1048576 -L ${ROOT})
