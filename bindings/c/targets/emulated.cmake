# A processor for which nothing is proved, under qemu: -DTARGET=s390x, or another of these.
set(CMAKE_TRY_COMPILE_PLATFORM_VARIABLES TARGET)
set(i686 i686-linux-gnu i386) # i386 (32 bits), by qemu
set(armhf arm-linux-gnueabihf arm) # ARMv7 (32 bits), by qemu
set(ppc64el powerpc64le-linux-gnu ppc64le) # POWER, by qemu
set(riscv64 riscv64-linux-gnu riscv64) # RISC-V, by qemu
set(s390x s390x-linux-gnu s390x) # s390x (big-endian), by qemu
list(GET ${TARGET} 0 prefix)
list(GET ${TARGET} 1 emulated)
set(CMAKE_SYSTEM_NAME Linux)
set(CMAKE_SYSTEM_PROCESSOR ${TARGET})
set(CMAKE_C_COMPILER ${prefix}-gcc)
set(CMAKE_EXE_LINKER_FLAGS_INIT -static)
set(CMAKE_CROSSCOMPILING_EMULATOR qemu-${emulated}-static)
