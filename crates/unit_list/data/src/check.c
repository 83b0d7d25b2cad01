#include "bits.h"
#include "minmax.h"
#include "text.h"

#define CHECK_NAMES static const char *const bit_checks[] =
#define CHECK_FAILED static int failed_bit_check(void)
#define CHECK_TABLE \
    CHECK(mask, MASK(3) == 7u) \
    CHECK(get, FIELD_GET(0xabu, 4, 4) == 0xau) \
    CHECK(set, FIELD_SET(0u, 4, 4, 0xau) == 0xa0u)
#include "check.h"

#define CHECK_NAMES static const char *const order_checks[] =
#define CHECK_FAILED static int failed_order_check(void)
#define CHECK_TABLE \
    CHECK(min, MIN(2, 3) == 2) \
    CHECK(max, MAX(2, 3) == 3) \
    CHECK(abs, ABS(-5) == 5)
#include "check.h"

int main(void)
{
    unsigned int i;
    for (i = 0; i < COUNT_OF(bit_checks); i++)
        if (text_length(bit_checks[i]) == 0)
            return 1;
    for (i = 0; i < COUNT_OF(order_checks); i++)
        if (text_length(order_checks[i]) == 0)
            return 2;
    return failed_bit_check() ? 3 : failed_order_check() ? 4 : 0;
}
