/* What each program begins with: RESULT is what it tells. Compiled for RISC-V it writes RESULT by `write` of Linux, which the machine of
   crates/riscv takes for the end of the run; compiled natively it writes it too. */
#include <stddef.h>
#include <stdint.h>
static uint8_t result[1 << 12];
static size_t work(void);
#ifdef __riscv
__attribute__((naked, used, section(".text.start"))) void _start(void) {
    __asm__("la sp, stack_top\n andi sp, sp, -16\n call told\n mv a2, a0\n la a1, %0\n li a0, 1\n li a7, 64\n ecall\n"
            " li a0, 0\n li a7, 93\n ecall\n" : : "i"(result));
}
__attribute__((used)) static size_t told(void) __asm__("told");
static size_t told(void) { return work(); }
void *memset(void *to, int byte, size_t n) { uint8_t *t = to; while (n--) *t++ = (uint8_t)byte; return to; }
void *memcpy(void *to, const void *from, size_t n) { uint8_t *t = to; const uint8_t *f = from; while (n--) *t++ = *f++; return to; }
#else
#include <stdio.h>
int main(void) { return fwrite(result, 1, work(), stdout) == 0; }
#endif
__attribute__((unused)) static void tell32(size_t *at, uint32_t n) { for (int i = 0; i < 4; i++) result[(*at)++] = (uint8_t)(n >> 8 * i); }
