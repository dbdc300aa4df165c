// The counterpart of `plandesk check` in C over mapped files, for bench/check alone: the same counts, and the same report of a
// house plan of 100 districts with its senate plan of 50, of the state that bench/check makes. A file that is wrong ends it.
#include <emmintrin.h>
#include <fcntl.h>
#include <stdbool.h>
#include <stdint.h>
#include <stdio.h>
#include <stdlib.h>
#include <string.h>
#include <sys/mman.h>
#include <sys/stat.h>

enum { HOUSE = 100, SENATE = 50, NONE = UINT32_MAX };

static void need(bool holds) {
    if (!holds) abort();
}

static void *room(size_t count, size_t size) {
    void *at = calloc(count ? count : 1, size);
    need(at != NULL);
    return at;
}

typedef struct { const char *at, *end; } Text;

static Text mapped(const char *path) {
    int file = open(path, O_RDONLY);
    struct stat about;
    need(file >= 0 && fstat(file, &about) == 0);
    char *at = mmap(NULL, about.st_size, PROT_READ, MAP_PRIVATE | MAP_POPULATE, file, 0);
    need(at != MAP_FAILED);
    madvise(at, about.st_size, MADV_SEQUENTIAL);
    return (Text){at, at + about.st_size};
}

// the next line without its end, in which so many fields stand
static Text next_line(Text *text, unsigned fields) {
    const __m128i feed = _mm_set1_epi8('\n'), bar = _mm_set1_epi8('|');
    const char *at = text->at;
    unsigned bars = 0;
    for (;;) {
        if (text->end - at < 16) {
            while (at < text->end && *at != '\n') bars += *at++ == '|';
            break;
        }
        __m128i block = _mm_loadu_si128((const __m128i *)at);
        unsigned feeds = _mm_movemask_epi8(_mm_cmpeq_epi8(block, feed)), hits = _mm_movemask_epi8(_mm_cmpeq_epi8(block, bar));
        if (feeds) {
            unsigned end = __builtin_ctz(feeds);
            bars += __builtin_popcount(hits & ((1u << end) - 1));
            at += end;
            break;
        }
        bars += __builtin_popcount(hits);
        at += 16;
    }
    Text line = {text->at, at};
    text->at = at < text->end ? at + 1 : at;
    if (line.end > line.at && line.end[-1] == '\r') line.end--;
    need(bars + 1 == fields && line.end - line.at <= 65536);
    return line;
}

static Text field(Text *line) {
    const char *bar = memchr(line->at, '|', line->end - line->at);
    Text part = {line->at, bar ? bar : line->end};
    line->at = bar ? bar + 1 : line->end;
    return part;
}

static uint64_t number(Text text) {
    uint64_t n = 0;
    need(text.at < text.end && text.end - text.at <= 15);
    for (; text.at < text.end; text.at++) {
        need(*text.at >= '0' && *text.at <= '9');
        n = n * 10 + (*text.at - '0');
    }
    return n;
}

static bool is(Text text, const char *word) {
    size_t long_ = strlen(word);
    return (size_t)(text.end - text.at) == long_ && memcmp(text.at, word, long_) == 0;
}

// numbers with values, by open addressing
typedef struct { uint64_t *keys; uint32_t *values; size_t mask, count; } Table;

static Table table(void) {
    return (Table){room(1 << 16, 8), room(1 << 16, 4), (1 << 16) - 1, 0};
}

static size_t slot(const Table *t, uint64_t key) {
    size_t at = ((key ^ key >> 32) * 0x9e3779b97f4a7c15u) >> 20 & t->mask;
    while (t->keys[at] && t->keys[at] != key + 1) at = (at + 1) & t->mask;
    return at;
}

static void put(Table *t, uint64_t key, uint32_t value) {
    if (2 * t->count > t->mask) {
        Table wide = {room(2 * (t->mask + 1), 8), room(2 * (t->mask + 1), 4), 2 * t->mask + 1, t->count};
        for (size_t i = 0; i <= t->mask; i++)
            if (t->keys[i]) {
                size_t at = slot(&wide, t->keys[i] - 1);
                wide.keys[at] = t->keys[i];
                wide.values[at] = t->values[i];
            }
        free(t->keys);
        free(t->values);
        *t = wide;
    }
    size_t at = slot(t, key);
    need(!t->keys[at]);
    t->keys[at] = key + 1;
    t->values[at] = value;
    t->count++;
}

static uint32_t get(const Table *t, uint64_t key) {
    size_t at = slot(t, key);
    need(t->keys[at]);
    return t->values[at];
}

typedef struct { uint64_t id, key; uint32_t city, people; } Row;

static unsigned county(const Row *row) {
    return row->id / 10000000000 % 1000;
}

static int by_id(const void *one, const void *other) {
    uint64_t a = ((const Row *)one)->id, b = ((const Row *)other)->id;
    return a < b ? -1 : a > b;
}

static Row *rows;
static size_t count;

static Table segment(const char *path, unsigned fields, bool with_people) {
    Table records = table();
    Text text = mapped(path);
    while (text.at < text.end) {
        Text line = next_line(&text, fields);
        for (int i = 0; i < 4; i++) field(&line);
        uint64_t key = number(field(&line));
        put(&records, key, with_people ? number(field(&line)) : 0);
    }
    return records;
}

static void read_state(char **paths) {
    Table ids = table(), numbers = table();
    uint64_t state = 0;
    bool with_state = false;
    size_t wide = 1 << 16;
    rows = room(wide, sizeof(Row));
    Text text = mapped(paths[0]);
    while (text.at < text.end) {
        Text line = next_line(&text, 97), part[36];
        for (int i = 0; i < 35; i++) part[i] = field(&line);
        if (!is(part[4], "00")) continue;
        if (is(part[2], "040")) {
            state = number(part[7]);
            with_state = true;
            put(&numbers, state, 0);
        } else if (is(part[2], "750")) {
            uint64_t id = ((number(part[12]) * 1000 + number(part[14])) * 1000000 + number(part[32])) * 10000 + number(part[34]);
            uint64_t key = number(part[7]);
            put(&numbers, key, 0);
            put(&ids, id, 0);
            if (count == wide) need((rows = realloc(rows, (wide *= 2) * sizeof(Row))) != NULL);
            rows[count++] = (Row){id, key, part[30].at < part[30].end && *part[30].at == 'C' ? number(part[29]) : NONE, 0};
        }
    }
    Table one = segment(paths[1], 149, true), two = segment(paths[2], 152, false), three = segment(paths[3], 15, false);
    uint64_t total = 0;
    for (size_t i = 0; i < count; i++) {
        rows[i].people = get(&one, rows[i].key);
        get(&two, rows[i].key);
        get(&three, rows[i].key);
        total += rows[i].people;
    }
    need(!with_state || get(&one, state) == total);
    qsort(rows, count, sizeof(Row), by_id);
}

static void check(void) {
    uint64_t total = 0, people[1000] = {0};
    bool there[1000] = {0};
    unsigned counties = 0;
    for (size_t i = 0; i < count; i++) {
        unsigned c = county(&rows[i]);
        counties += !there[c];
        there[c] = true;
        people[c] += rows[i].people;
        total += rows[i].people;
    }
    printf("blocks %zu\ncounties %u\npopulation %lu\n", count, counties, total);
    for (int c = 0; c < 1000; c++)
        if (there[c]) printf("county %03d %lu\n", c, people[c]);
}

static uint32_t place(uint64_t id) {
    size_t low = 0, high = count;
    while (low < high) {
        size_t middle = low + (high - low) / 2;
        if (rows[middle].id < id) low = middle + 1; else high = middle;
    }
    need(low < count && rows[low].id == id);
    return low;
}

static Text word(Text *text) {
    while (text->at < text->end && (*text->at == ' ' || *text->at == '\n' || *text->at == '\r' || *text->at == '\t')) text->at++;
    Text part = *text;
    while (text->at < text->end && *text->at != ' ' && *text->at != '\n' && *text->at != '\r' && *text->at != '\t') text->at++;
    part.end = text->at;
    return part;
}

static uint32_t *starts, *near;

static bool is_near(uint32_t one, uint32_t other) {
    for (uint32_t k = starts[2 * one]; k < starts[2 * one + 1]; k++)
        if (near[k] == other) return true;
    return false;
}

static void read_neighbours(const char *path) {
    Text text = mapped(path);
    word(&text);
    uint64_t units = number(word(&text));
    word(&text);
    word(&text);
    size_t filled = 0, wide = 8 * count;
    starts = room(2 * count, 4);
    near = room(wide, 4);
    bool *seen = room(count, 1);
    need(units == count);
    for (uint64_t i = 0; i < units; i++) {
        uint32_t unit = place(number(word(&text)));
        uint64_t n = number(word(&text));
        need(n <= 4096 && !seen[unit]);
        seen[unit] = true;
        if (filled + n > wide) need((near = realloc(near, (wide = 2 * wide + n) * 4)) != NULL);
        starts[2 * unit] = starts[2 * unit + 1] = filled;
        for (uint64_t k = 0; k < n; k++) {
            uint32_t other = place(number(word(&text)));
            need(other != unit && !is_near(unit, other));
            near[filled++] = other;
            starts[2 * unit + 1] = filled;
        }
    }
    Text end = word(&text);
    need(end.at == end.end);
    for (uint32_t unit = 0; unit < count; unit++)
        for (uint32_t k = starts[2 * unit]; k < starts[2 * unit + 1]; k++) need(is_near(near[k], unit));
}

static uint16_t *read_plan(const char *path, unsigned districts) {
    Text text = mapped(path);
    uint16_t *plan = room(count, 2);
    bool *seen = room(count, 1);
    need(is(next_line(&text, 2), "BLOCKID|DISTRICT"));
    while (text.at < text.end) {
        Text line = next_line(&text, 2), id = field(&line);
        uint32_t at = place(number(id));
        uint64_t d = line.at == line.end || is(line, "ZZ") || is(line, "ZZZ") ? 0 : number(line);
        need(id.end - id.at == 15 && !seen[at] && d <= districts);
        seen[at] = true;
        plan[at] = d;
    }
    return plan;
}

static const char *between;

static void item(void) {
    fputs(between, stdout);
    between = ",";
}

// the keys whose blocks have two districts; of a city within a county, by the county too
static void print_divided(const char *name, const uint16_t *plan, int form) {
    uint32_t wide = 1000;
    for (size_t i = 0; i < count; i++)
        if (form && rows[i].city != NONE && rows[i].city >= wide) wide = rows[i].city + 1;
    int32_t *first = room(wide, 4), *last = room(wide, 4);
    bool *two = room(wide, 1);
    memset(first, -1, wide * 4);
    for (size_t i = 0; i < count; i++) {
        uint32_t key = form ? rows[i].city : county(&rows[i]);
        if (key == NONE) continue;
        int32_t within = form == 2 ? (int32_t)county(&rows[i]) : 0;
        if (first[key] < 0 || last[key] != within) { first[key] = plan[i]; last[key] = within; }
        two[key] |= first[key] != plan[i];
    }
    printf("\"%s\":[", name);
    between = "";
    for (uint32_t key = 0; key < wide; key++)
        if (two[key]) { item(); printf(form ? "\"%05u\"" : "\"%03u\"", key); }
    fputs("],", stdout);
    free(first);
    free(last);
    free(two);
}

// each district's least block, and its least to which no path leads from there; both are counted from 1
static void find_gaps(const uint16_t *plan, uint32_t *first, uint32_t *apart) {
    bool *seen = room(count, 1);
    uint32_t *open = room(count, 4);
    for (uint32_t i = 0; i < count; i++) {
        unsigned d = plan[i];
        if (d == 0 || seen[i]) continue;
        if (first[d]) {
            if (!apart[d]) apart[d] = i + 1;
            continue;
        }
        first[d] = i + 1;
        size_t held = 0;
        open[held++] = i;
        seen[i] = true;
        while (held) {
            uint32_t at = open[--held];
            for (uint32_t k = starts[2 * at]; k < starts[2 * at + 1]; k++)
                if (plan[near[k]] == d && !seen[near[k]]) {
                    seen[near[k]] = true;
                    open[held++] = near[k];
                }
        }
    }
}

static void audit(char **paths) {
    read_neighbours(paths[4]);
    uint16_t *plan = read_plan(paths[5], HOUSE), *senate = read_plan(paths[6], SENATE);
    uint64_t total = 0, people[HOUSE + 1] = {0}, off = 0, unassigned = 0;
    uint32_t first[HOUSE + 1] = {0}, apart[HOUSE + 1] = {0};
    int value[HOUSE + 1];
    bool bad[HOUSE + 1] = {0}, gaps = false, nested = true;
    memset(value, -1, sizeof value);
    for (size_t i = 0; i < count; i++) {
        unsigned d = plan[i];
        total += rows[i].people;
        people[d] += rows[i].people;
        unassigned += d == 0;
        if (value[d] < 0) value[d] = senate[i];
        bad[d] |= senate[i] == 0 || value[d] != senate[i];
    }
    unsigned most = 1, least = 1;
    for (unsigned d = 1; d <= HOUSE; d++) {
        uint64_t times = HOUSE * people[d];
        off += times > total ? times - total : total - times;
        if (people[d] > people[most]) most = d;
        if (people[d] < people[least]) least = d;
        nested &= !bad[d];
    }
    find_gaps(plan, first, apart);
    for (unsigned d = 1; d <= HOUSE; d++) gaps |= !first[d] || apart[d];
    bool mean = 100 * off > HOUSE * total, range = 20 * people[most] > 21 * people[least];
    fputs("{\"broken\":[", stdout);
    between = "";
    if (unassigned) { item(); fputs("\"desk.complete\"", stdout); }
    if (mean) { item(); fputs("\"42.4.1.a.mean\"", stdout); }
    if (range) { item(); fputs("\"42.4.1.a.range\"", stdout); }
    if (gaps) { item(); fputs("\"42.4.3\"", stdout); }
    if (!nested) { item(); fputs("\"42.4.6\"", stdout); }
    fputs("],", stdout);
    print_divided("cities", plan, 1);
    print_divided("cities_in_county", plan, 2);
    fputs("\"congress\":[],\"contiguity\":[", stdout);
    between = "";
    for (unsigned d = 1; d <= HOUSE; d++)
        if (!first[d]) { item(); printf("{\"district\":%u}", d); }
        else if (apart[d]) { item(); printf("{\"district\":%u,\"from\":\"%015lu\",\"to\":\"%015lu\"}", d, rows[first[d] - 1].id, rows[apart[d] - 1].id); }
    fputs("],", stdout);
    print_divided("counties", plan, 0);
    printf("\"districts\":%u,\"divided_by_congress\":null,\"kind\":\"house\",\"nesting\":[", HOUSE);
    between = "";
    for (unsigned d = 1; d <= HOUSE; d++)
        if (bad[d]) { item(); printf("%u", d); }
    printf("],\"not_asked\":[],\"population\":%lu,\"populations\":[", total);
    between = "";
    for (unsigned d = 1; d <= HOUSE; d++) { item(); printf("%lu", people[d]); }
    fputs("],\"range\":", stdout);
    if (range) printf("[%u,%u]", most, least); else fputs("null", stdout);
    printf(",\"unassigned\":%lu}\n", unassigned);
}

int main(int words, char **word_list) {
    need(words > 5);
    read_state(word_list + 2);
    if (strcmp(word_list[1], "audit") == 0) audit(word_list + 2); else check();
    return 0;
}
