
static void sum_{symbol}(uint64_t seed) {
    start(seed);
    for (int call = 0; call < CALLS; call++) {
{body}
    }
    finish("{symbol}");
}
