/* Decimal digits, for the programs that print. */
#include <stdint.h>
#include <string.h>

static const char pairs[] =
    "0001020304050607080910111213141516171819202122232425262728293031323334353637383940414243444546474849"
    "5051525354555657585960616263646566676869707172737475767778798081828384858687888990919293949596979899";

// puts a number, two digits at a time, and returns the place behind it
static inline char *put(char *at, int64_t value) {
    char digits[20];
    int n = 20;
    uint64_t left = value < 0 ? 0 - (uint64_t)value : (uint64_t)value;
    if (value < 0) *at++ = '-';
    for (; left >= 100; left /= 100) memcpy(digits + (n -= 2), pairs + 2 * (left % 100), 2);
    if (left >= 10) memcpy(digits + (n -= 2), pairs + 2 * left, 2);
    else digits[--n] = '0' + left;
    memcpy(at, digits + n, 20 - n);
    return at + 20 - n;
}
