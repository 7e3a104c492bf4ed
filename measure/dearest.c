/* A fuzzer that looks for cost: an input says which datagrams strangers, half-open and connected clients send a host, in which order, when
 * its events and datagrams are taken and what its user sends. Of it a script of `probe prices` is made (trials/probe/prices.rt.in), which
 * runs here, in memory: the program's `main`, `read`, `write` and clock are renamed, and it is compiled so that each edge that it takes
 * calls `cost_edge` (scripts/by-hand/fuzz-cost.sh). Sought are datagrams that take most beside what they may, 2,000 instructions each and
 * 1,000 a byte: one by itself, and all of an input in sum. An edge counts as twelve instructions. What time alone brings, and what the
 * user's own calls take, isn't counted. With libFuzzer it is built with -DFUZZER. Alone: `dearest play FILE..` says of each input what took
 * most,
 * `dearest tell FILE` prints its script with what each row took, and `dearest rows FILE` runs a script and prints the edges of each row. */
#include <stdarg.h>
#include <stdbool.h>
#include <stddef.h>
#include <stdint.h>
#include <stdio.h>
#include <stdlib.h>
#include <string.h>
#include <time.h>
#include <unistd.h>

enum { CONNECTED = 3, HALF_OPEN = 5, CLIENTS = 7, LONGEST = 4096, MOST_ROWS = 6000, MOST_TEXT = 1 << 22, AN_EDGE = 12 };
enum { STEPS = 64, KINDS = 48, MAP = 1 << 16 };

/* What stands before a row: how many bytes its datagram has, and of which kind its last command and its sender are. */
typedef struct {
    size_t bytes;
    unsigned kind;
    uint64_t edges;
} Row;

int probe_main(int argc, char **argv);

static const uint8_t *input;
static size_t input_left;
static uint64_t edges, begun_at;
static bool is_between, is_shown;
static char *text;
static size_t text_length, text_read;
static Row rows[MOST_ROWS];
static size_t row_count, rows_run;
static uint8_t datagram[LONGEST];
static size_t length;
static uint16_t numbers[16]; /* the last number of each kind of command */
static unsigned strangers;
static double dearest, dearest_of_all;

/* What libFuzzer seeks to reach: each edge, and each step of a cost. */
__attribute__((section("__libfuzzer_extra_counters"), used)) static uint8_t reached[MAP + KINDS * STEPS + STEPS];

/* What stands in the places of the program's own. */
void cost_init(uint32_t *from, uint32_t *to);
void cost_edge(const uint32_t *edge);
ssize_t cost_read(int fd, void *bytes, size_t room);
ssize_t cost_write(int fd, const void *bytes, size_t count);
int cost_clock(clockid_t clock, struct timespec *now);
ptrdiff_t rattle_arg(size_t i, char *bytes, size_t room);

void cost_init(uint32_t *from, uint32_t *to) {
    static uint32_t count;
    for (; from < to; from++) *from = ++count;
}

void cost_edge(const uint32_t *edge) {
    uint8_t *counter = &reached[*edge % MAP];
    edges++;
    if (*counter < 255) ++*counter;
}

ssize_t cost_read(int fd, void *bytes, size_t room) {
    size_t count = text_length - text_read < room ? text_length - text_read : room;
    (void)fd;
    memcpy(bytes, text + text_read, count);
    text_read += count;
    return (ssize_t)count;
}

ssize_t cost_write(int fd, const void *bytes, size_t count) {
    if (is_shown && fwrite(bytes, 1, count, fd == 1 ? stdout : stderr) != count) abort();
    return (ssize_t)count;
}

int cost_clock(clockid_t clock, struct timespec *now) {
    (void)clock;
    *now = (struct timespec){.tv_sec = 1};
    if (!is_between) begun_at = edges;
    else if (rows_run < MOST_ROWS) rows[rows_run++].edges = edges - begun_at;
    if (is_between && is_shown) printf("%10llu edges: ", (unsigned long long)(edges - begun_at));
    is_between = !is_between;
    return 0;
}

ptrdiff_t rattle_arg(size_t i, char *bytes, size_t room) {
    static const char *const words[] = {"probe", "prices"};
    if (i >= 2) return -1;
    size_t count = strlen(words[i]);
    memcpy(bytes, words[i], count < room ? count : room);
    return (ptrdiff_t)count;
}

static uint8_t take(void) {
    if (!input_left) return 0;
    input_left--;
    return *input++;
}

static uint32_t one_of(const uint32_t *values, size_t count) { return values[take() % count]; }
#define ONE_OF(...) one_of((const uint32_t[]){__VA_ARGS__}, sizeof((const uint32_t[]){__VA_ARGS__}) / sizeof(uint32_t))

static void put8(uint32_t value) {
    if (length < LONGEST) datagram[length++] = (uint8_t)value;
}
static void put16(uint32_t value) { put8(value >> 8), put8(value); }
static void put32(uint32_t value) { put16(value >> 16), put16(value); }

__attribute__((format(printf, 1, 2))) static void say(const char *format, ...) {
    va_list words;
    va_start(words, format);
    size_t room = MOST_TEXT - text_length;
    int count = vsnprintf(text + text_length, room, format, words);
    va_end(words);
    if (count > 0 && (size_t)count < room) text_length += (size_t)count;
}

/* The step of a quotient, eight to each doubling, from a 32nd on. */
static size_t step_of(double quotient) {
    size_t step = 0;
    for (double at = 1.0 / 32; at < quotient && step < STEPS - 1; at *= 1.0905) step++;
    return step;
}

/* The datagram comes, and what it brings about is taken, or isn't. */
static void send(unsigned sender, unsigned kind, bool takes) {
    bool is_raw = sender >= HALF_OPEN;
    if (row_count >= MOST_ROWS || text_length + 2 * length + 100 > MOST_TEXT) return;
    if (is_raw) say("at %u\nraw ", 1000 + strangers++);
    else say("from %u\nto ", sender);
    for (size_t i = 0; i < length; i++) say("%02x", datagram[i]);
    say("\nrow r %s\n", takes ? "each" : "never");
    unsigned state = sender < CONNECTED ? 0 : sender < HALF_OPEN ? 1 : 2;
    rows[row_count++] = (Row){length + (is_raw ? 0 : 4), kind + 16 * state, 0};
}

static void put_connect(uint32_t channels, uint32_t id) {
    put32(0x8fff0000), put32(0x82ff0001), put16(0), put16(0xffff), put32(1400), put32(65536), put32(channels);
    put32(0), put32(0), put32(5000), put32(2), put32(2), put32(id), put32(7);
}

/* The next number of this kind of command: mostly the one after, or far off, or the same. */
static uint16_t next_number(unsigned of, unsigned way) {
    static const uint16_t steps[] = {1, 1, 1, 0, 0xffff, 4096, 1024, 32767};
    return numbers[of] = (uint16_t)(numbers[of] + steps[way % 8]);
}

static void put_piece(uint32_t count, uint32_t place, uint32_t size) {
    uint32_t payload = place + 1 == count ? 1 : size, total = size * (count - 1) + 1;
    put16(payload), put32(count), put32(place), put32(total), put32(size * place);
    for (uint32_t i = 0; i < payload; i++) put8(0);
}

/* A command of this kind. */
static void put_command(unsigned of, unsigned way, uint32_t channel, uint32_t payload) {
    uint16_t number = next_number(of, way), last = numbers[2];
    uint32_t count = 1u << (payload % 15);
    switch (of) {
    case 0: put8(0x01), put8(channel), put16(number), put16(number), put16(0); break;
    case 1: put8(0x85), put8(0xff), put16(number); break;
    case 2: put8(0x86), put8(channel), put16(number), put16(payload % 3); break;
    case 3: put8(0x07), put8(channel), put16(last), put16(number), put16(payload % 3); break;
    case 4: put8(0x07), put8(channel), put16(number), put16(1), put16(payload % 3); break;
    case 5: put8(0x49), put8(channel), put16(0), put16(number), put16(payload % 3); break;
    case 6: put8(0x88), put8(channel), put16(last + 1u + number % count), put16(last + 1u), put_piece(count, number % count, 512); break;
    case 7: put8(0x0c), put8(channel), put16(last), put16(number), put_piece(count, count - 1, 512); break;
    case 8: put8(0x0c), put8(channel), put16(number), put16(1), put_piece(count, count - 1, 512); break;
    case 9: put8(0x8a), put8(0xff), put16(number), put32(payload * 1000), put32(number); break;
    case 10: put8(0x8b), put8(0xff), put16(number), put32(payload), put32(2), put32(2); break;
    case 11: put8(way & 1 ? 0x84 : 0x44), put8(0xff), put16(number), put32(0); break;
    case 12: put8(payload), put8(channel), put16(number); break;
    default: put8(0x01), put8(0xff), put16(number), put16(number), put16(payload);
    }
    if (of >= 2 && of <= 5)
        for (uint32_t i = 0; i < payload % 3; i++) put8(0);
}

/* Commands of one kind, many times: in one datagram, or each in its own. Strangers send CONNECTs. */
static void send_many(void) {
    unsigned what = take(), way = take(), shape = take(), repeats = take() + 1u;
    uint32_t channel = take(), payload = take();
    unsigned kind = what % 14, sender = (what >> 4) % CLIENTS;
    bool is_packed = shape & 1, spreads = shape & 4;
    length = 0;
    for (unsigned n = 0; n < repeats; n++) {
        if (sender >= HALF_OPEN) put_connect(payload, next_number(15, way));
        else put_command(kind, way, spreads ? (channel + n) % 255 : channel, payload);
        if (is_packed && sender < HALF_OPEN && length + 600 < 1392 && n + 1 < repeats) continue;
        send(sender, kind, !(shape & 2));
        length = 0;
    }
}

static void act(unsigned op) {
    unsigned client = take() % CONNECTED;
    if (op % 8 == 5) {
        bool is_spread = op & 8;
        uint32_t size = ONE_OF(1, 0, 100, 1300, 5000), count = take() % 64 + 1u, last = is_spread ? take() : 1;
        for (uint32_t channel = 0; channel < last; channel++) say("submit %u %u %u %u %u\n", client, channel, op >> 4 & 3, size, count);
        say("play last\n");
    } else if (op % 8 == 6) say("tick %u\nplay last\n", ONE_OF(1, 1, 10, 100, 600));
    else if (op % 8 == 7) say(op & 0x80 ? "leave %u\nplay last\n" : "play last\n", client);
    else send_many();
}

/* Makes the script of an input. */
static void write_script(void) {
    uint32_t channels = ONE_OF(2, 255, 1, 16), waiting = ONE_OF(33554432, 1, 2000, 100000), peers = ONE_OF(6, 64, 1000);
    text_length = text_read = row_count = rows_run = strangers = 0;
    memset(numbers, 0, sizeof numbers);
    say("open %u %u 33554432 %u 0\njoin %d %u\n", peers, channels, waiting, CONNECTED, channels);
    say("ask %d %u 0\ntick 1\nplay last\n", HALF_OPEN - CONNECTED, channels);
    while (input_left) act(take());
}

static void charge(void) {
    double all = 0, most = 0;
    dearest = dearest_of_all = 0;
    for (size_t k = 0; k < rows_run && k < row_count; k++) {
        double may = (2000.0 + 1000.0 * (double)rows[k].bytes) / AN_EDGE, own = (double)rows[k].edges / may;
        all += (double)rows[k].edges, most += may;
        reached[MAP + rows[k].kind % KINDS * STEPS + step_of(own)] = 1;
        if (own > dearest) dearest = own;
        if (all / most > dearest_of_all) dearest_of_all = all / most;
    }
    reached[MAP + KINDS * STEPS + step_of(dearest_of_all)] = 1;
}

static void run_script(void) {
    char *words[] = {"probe", "prices", NULL};
    is_between = false;
    probe_main(2, words);
}

int LLVMFuzzerTestOneInput(const uint8_t *bytes, size_t count);
int LLVMFuzzerTestOneInput(const uint8_t *bytes, size_t count) {
    if (!text && !(text = malloc(MOST_TEXT))) abort();
    input = bytes;
    input_left = count;
    write_script();
    run_script();
    charge();
    return 0;
}

#ifndef FUZZER
static size_t read_file(const char *name, void *bytes, size_t room) {
    FILE *file = fopen(name, "rb");
    if (!file) return 0;
    size_t count = fread(bytes, 1, room, file);
    fclose(file);
    return count;
}

static void play(const char *name) {
    static uint8_t bytes[1 << 14];
    LLVMFuzzerTestOneInput(bytes, read_file(name, bytes, sizeof bytes));
    printf("%s: one datagram took %.2f of what it may, all %zu took %.3f of what they may\n", name, dearest, row_count, dearest_of_all);
}

int main(int argc, char **argv) {
    if (argc < 3) return 2;
    if (!(text = malloc(16 * MOST_TEXT))) return 2;
    is_shown = strcmp(argv[1], "play") != 0;
    if (!strcmp(argv[1], "rows")) {
        text_length = read_file(argv[2], text, 16 * MOST_TEXT);
        run_script();
        return 0;
    }
    for (int k = 2; k < argc; k++) play(argv[k]);
    if (is_shown) fwrite(text, 1, text_length, stdout);
    return 0;
}
#endif
