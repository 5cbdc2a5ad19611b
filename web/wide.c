/* Products, quotients and shifts of 128 bits, which the compiler calls by these names where a processor has none. A number is
 * shifted by 0 to 127, and never divided by 0. */
typedef unsigned long long u64;

union wide {
    unsigned __int128 whole;
    struct {
        u64 low, high;
    } half;
};

unsigned __int128 __multi3(unsigned __int128 left, unsigned __int128 right)
{
    union wide a = {left}, b = {right}, product;
    u64 a0 = (unsigned)a.half.low, a1 = a.half.low >> 32, b0 = (unsigned)b.half.low, b1 = b.half.low >> 32;
    u64 low = a0 * b0, middle = a1 * b0 + (low >> 32), other = a0 * b1 + (unsigned)middle;
    product.half.low = other << 32 | (unsigned)low;
    product.half.high = a1 * b1 + (middle >> 32) + (other >> 32) + a.half.high * b.half.low + a.half.low * b.half.high;
    return product.whole;
}

unsigned __int128 __ashlti3(unsigned __int128 number, int by)
{
    union wide a = {number}, shifted;
    shifted.half.low = by < 64 ? a.half.low << by : 0;
    shifted.half.high = by >= 64 ? a.half.low << (by - 64) : by ? a.half.high << by | a.half.low >> (64 - by) : a.half.high;
    return shifted.whole;
}

/* Shifts to the right, with `fill`, 0 or all ones, from the left. */
static unsigned __int128 shift_right(unsigned __int128 number, int by, u64 fill)
{
    union wide a = {number}, shifted;
    u64 ahead = by % 64 ? fill << (64 - by % 64) : 0, high = a.half.high >> by % 64 | ahead;
    shifted.half.high = by < 64 ? high : fill;
    shifted.half.low = by >= 64 ? high : by ? a.half.low >> by | a.half.high << (64 - by) : a.half.low;
    return shifted.whole;
}

unsigned __int128 __lshrti3(unsigned __int128 number, int by)
{
    return shift_right(number, by, 0);
}

__int128 __ashrti3(__int128 number, int by)
{
    return (__int128)shift_right((unsigned __int128)number, by, number < 0 ? ~0ull : 0);
}

unsigned __int128 __udivti3(unsigned __int128 number, unsigned __int128 by)
{
    union wide a = {number}, b = {by}, quotient = {0}, rest = {0};
    if (a.half.high == 0 && b.half.high == 0)
        return a.half.low / b.half.low;
    for (int bit = 127; bit >= 0; bit--) {
        u64 carry = rest.half.high >> 63, half = bit < 64 ? a.half.low : a.half.high;
        rest.whole = rest.whole << 1 | (half >> bit % 64 & 1);
        if (carry || rest.whole >= by) {
            rest.whole -= by;
            if (bit < 64)
                quotient.half.low |= 1ull << bit;
            else
                quotient.half.high |= 1ull << (bit - 64);
        }
    }
    return quotient.whole;
}
