// The calls of ic.h, for the processor and system that the compiler makes code for: cc program.c dist/asm/ic.S -Iinclude
#if defined(__x86_64__) && defined(__ELF__) && !defined(__ILP32__)
#include "ic-x86_64-linux.s"
#elif defined(__aarch64__) && defined(__ELF__) && !defined(__ILP32__) && !defined(__AARCH64EB__)
#include "ic-aarch64-linux.s"
#elif defined(__x86_64__) && defined(__APPLE__)
#include "ic-x86_64-macos.s"
#elif defined(__aarch64__) && defined(__APPLE__)
#include "ic-aarch64-macos.s"
#elif defined(__x86_64__) && defined(_WIN32)
#include "ic-x86_64-windows.s"
// Cortex-M4 and M7, M33 and M55 with DSP, and Cortex-A with divisions; and any other Cortex-M
#elif defined(__thumb2__) && defined(__ARM_FEATURE_DSP) && defined(__ARM_FEATURE_IDIV) && defined(__ELF__) && !defined(__ARM_BIG_ENDIAN)
#include "ic-thumbv7em.s"
#elif defined(__thumb__) && defined(__ELF__) && !defined(__ARM_BIG_ENDIAN)
#include "ic-thumbv6m.s"
#elif defined(__riscv) && __riscv_xlen == 32 && defined(__riscv_div) && defined(__ELF__) && !defined(__riscv_32e)
#include "ic-riscv32imac.s"
#else
#error "ic has no code for this processor and system"
#endif
// Linux is told that no code is on the stack. Where there is no system, a linker would ask each file for this note.
#if defined(__linux__) && (defined(__arm__) || defined(__riscv))
	.section .note.GNU-stack,"",%progbits
#endif

// GNU ld warns of a program that refers to a name of a shared library without a type.
#ifdef __ELF__
        .type ic_version_0_1, %object
#endif
