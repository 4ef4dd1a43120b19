/* The product of two numbers of 128 bits, by which code that is compiled without a proof checks a
   product of 64 bits; proved code asks for none. */
typedef unsigned long long half;
__int128 __multi3(__int128 a, __int128 b);
__int128 __multi3(__int128 a, __int128 b) {
    const half low = 0xffffffffu, x = (half)a, y = (half)b;
    const half mid = (x >> 32) * (y & low) + ((x & low) * (y & low) >> 32);
    const half cross = (x & low) * (y >> 32) + (mid & low);
    const half high = (x >> 32) * (y >> 32) + (mid >> 32) + (cross >> 32);
    const half above = high + x * (half)(b >> 64) + (half)(a >> 64) * y;
    return (__int128)((unsigned __int128)above << 64 | x * y);
}
