/* This header has no guard: each inclusion makes the checks of the table again. */
#define CHECK(name, condition) int JOIN_OF(check_, name)(void) { return (condition) ? 0 : __LINE__; }
CHECK_TABLE
#undef CHECK
#define CHECK(name, condition) STRING(name),
CHECK_NAMES {
    CHECK_TABLE
};
#undef CHECK
#define CHECK(name, condition) JOIN_OF(check_, name)() ||
CHECK_FAILED
{
    return CHECK_TABLE 0;
}
#undef CHECK
#undef CHECK_TABLE
#undef CHECK_NAMES
#undef CHECK_FAILED
