/* The product of two numbers of 128 bits, modulo 2^128, which LLVM calls: WebAssembly has no such
 * instruction, and no library of the compiler is linked. It multiplies numbers of 32 bits alone: a
 * greater product would call this function again. */
#include <stdint.h>

unsigned __int128 __multi3(unsigned __int128 left, unsigned __int128 right);

unsigned __int128 __multi3(unsigned __int128 left, unsigned __int128 right) {
    uint64_t a = (uint64_t)left, b = (uint64_t)right;
    uint64_t a0 = (uint32_t)a, a1 = a >> 32, b0 = (uint32_t)b, b1 = b >> 32;
    uint64_t low = a0 * b0;
    uint64_t middle = a1 * b0 + (low >> 32);
    uint64_t other = a0 * b1 + (uint32_t)middle;
    uint64_t high = a1 * b1 + (middle >> 32) + (other >> 32);
    high += a * (uint64_t)(right >> 64) + (uint64_t)(left >> 64) * b;
    return (unsigned __int128)high << 64 | (other << 32 | (uint32_t)low);
}
