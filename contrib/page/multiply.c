/*
 * The product of two integers of 128 bits, for which WebAssembly has no instruction, and which clang calls by this name. Only the checks
 * of a library without a proof need it.
 */
typedef __UINT64_TYPE__ number;

enum { HALF = 32 };

#define LOW(x) ((x) & 0xffffffff)

__int128 __multi3(__int128 one, __int128 other);

__int128 __multi3(__int128 one, __int128 other)
{
    number a = (number)one, b = (number)other;
    number low = LOW(a) * LOW(b);
    number middle = (a >> HALF) * LOW(b) + (low >> HALF);
    number second = LOW(a) * (b >> HALF) + LOW(middle);
    number high = (a >> HALF) * (b >> HALF) + (middle >> HALF) + (second >> HALF);
    high += (number)(one >> 64) * b + a * (number)(other >> 64);
    return (__int128)((unsigned __int128)high << 64 | second << HALF | LOW(low));
}
