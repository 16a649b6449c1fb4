/* What the Rust as it ships can be asked: messages with its own table and its own conditions, nothing refused. */

/* A message cut by chance and ended in one of the ways, with masks that nobody looks at. */
static void cut_message(const uint8_t *bytes, size_t len)
{
    struct in in = { bytes, len };
    while (in.left) {
        size_t n = 1 + below(in.left);
        update(REAL, take(&in, n), n, NULL, one_in(4));
    }
    if (one_in(2)) finish(REAL, NULL, 0);
    int wrong = one_in(4);
    if (one_in(4)) reset();
    else finish_and_reset(REAL, NULL, wrong, 20, chance());
}

/* A published file, often with one bit turned in it, or bytes by chance; bytes by chance after it. */
static void some_message(uint64_t n)
{
    static uint8_t bytes[1024];
    size_t len = 0;
    if (n % 8 == 0) {
        len = published[n / 8 % 3].left;
        memcpy(bytes, published[n / 8 % 3].at, len);
        if (one_in(2)) turn_byte(bytes, len);
    }
    size_t more = below(300);
    fill_by_chance(bytes + len, more);
    cut_message(bytes, len + more);
}

static void shipped_requests(const char *data, uint64_t sessions)
{
    static const int modes[4] = { 0, MITIGATE, REDUCED, MITIGATE | REDUCED };
    lent_conditions = OWN;
    published_by_own();
    nist_messages(data, DETECT | CONDITIONS);
    for (uint64_t i = 0; i < sessions; i++) {
        begin_fresh(DETECT | CONDITIONS | modes[below(4)]);
        some_message(i);
        if (one_in(4)) some_message(i + 1);
        end();
    }
}
