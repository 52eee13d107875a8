// A second yardstick for `cpi replay` in memory, the limit of such a program: one pass over a buffer, arrays by collector
// and slot in place of maps, and keys in an open table of 128-bit numbers. It writes the reply lines of yardstick.cpp
// for the same records (`common/records.py`), with the checks of a quote, and reads a quote only in its plain form. It
// measures; it is no product.
//
//   yardstick_flat < RECORDS            the replies go out in large writes
//   yardstick_flat --line < RECORDS     each reply goes out by a write of its own, as cpi's do
//
// Build: g++ -O2 -std=c++17 yardstick_flat.cpp -o yardstick_flat
#include <cstdint>
#include <cstdio>
#include <cstdlib>
#include <cstring>
#include <string>
#include <string_view>
#include <unistd.h>
#include <unordered_map>
#include <utility>
#include <vector>

using std::string;
using std::string_view;
using std::vector;

struct Item { long low, high; };
struct Quote { int month; long price, receipt; };
struct Slot { int item = -1, first = 0, last = 0; vector<Quote> quotes; };
struct Collector { vector<Slot> slots; long greatest = 0; };
struct Calendar { bool is_there = false; long opens = 0, closes = 0; };
struct Key { uint64_t high, low; int collector; };

static const int MONTHS = 2400, KEYS = 1 << 15;
static const long MOST_RECEIPTS = 1000000, GREATEST = 9999999999;
static vector<Item> items;
static std::unordered_map<string, int> item_numbers;
static Collector collectors[10000];
static Calendar calendar[MONTHS];
static Key keys[KEYS];

// ---- replies

static char out[1 << 16];
static size_t filled;
static bool by_line;

static void flush(const char *bytes, size_t count) {
    if (write(1, bytes, count) < 0) exit(1);
}

static void reply(const char *bytes, size_t count) {
    if (by_line) return flush(bytes, count);
    if (filled + count > sizeof out) flush(out, filled), filled = 0;
    memcpy(out + filled, bytes, count);
    filled += count;
}

static void refuse(int code) {
    char line[64];
    reply(line, snprintf(line, sizeof line, "{\"refused\":%d}\n", code));
}

static void give(long receipt) {
    char line[64], *end = line + sizeof line, *begin = end;
    *--begin = '\n';
    *--begin = '}';
    do *--begin = '0' + receipt % 10;
    while (receipt /= 10);
    begin -= 11;
    memcpy(begin, "{\"receipt\":", 11);
    reply(begin, end - begin);
}

// ---- fields

static bool number(string_view text, long most, long &value) {
    if (text.empty() || (text.size() > 1 && text[0] == '0') || text.size() > 18) return false;
    value = 0;
    for (char c : text) {
        if (c < '0' || c > '9') return false;
        value = value * 10 + (c - '0');
    }
    return value <= most;
}

// Months are counted from January 2000.
static bool month(string_view text, int &value) {
    long year, count;
    if (text.size() != 7 || text[4] != '-') return false;
    if (!number(text.substr(0, 4), 2199, year) || text[5] > '1') return false;
    if (!number(text.substr(text[5] == '0' ? 6 : 5), 12, count)) return false;
    value = (year - 2000) * 12 + count - 1;
    return year >= 2000 && count >= 1;
}

static bool key(string_view text, uint64_t &high, uint64_t &low) {
    uint64_t halves[2] = {0, 0};
    if (text.size() != 32) return false;
    for (int i = 0; i < 32; i++) {
        char c = text[i];
        int digit = c >= '0' && c <= '9' ? c - '0' : c >= 'a' && c <= 'f' ? c - 'a' + 10 : -1;
        if (digit < 0) return false;
        halves[i / 16] = halves[i / 16] * 16 + digit;
    }
    high = halves[0], low = halves[1];
    return true;
}

static Key &place_of(uint64_t high, uint64_t low) {
    for (uint64_t at = (high * 0x9E3779B97F4A7C15ull ^ low * 0xC2B2AE3D27D4EB4Full) >> 40;; at++) {
        Key &found = keys[at % KEYS];
        if (!found.collector || (found.high == high && found.low == low)) return found;
    }
}

// ---- a quote

static bool is_outside(const Item &item, long last, long price, bool is_confirmed) {
    long low = (last * item.low + 999) / 1000, high = last * item.high / 1000;
    if (is_confirmed || (low <= price && price <= high)) return false;
    char line[160];
    const char *form = "{\"high\":%ld,\"last\":%ld,\"low\":%ld,\"refused\":26}\n";
    reply(line, snprintf(line, sizeof line, form, high, last, low));
    return true;
}

static int fault_of(const Slot &slot, int m, long now) {
    const Calendar &row = calendar[m];
    return !row.is_there ? 21 : m < slot.first || m > slot.last ? 22 : now < row.opens ? 23 : now >= row.closes ? 24 : 0;
}

static void put(Collector &collector, long now, long number, int m, long price, bool is_confirmed) {
    if (number > long(collector.slots.size()) || collector.slots[number - 1].item < 0) return refuse(20);
    Slot &slot = collector.slots[number - 1];
    size_t at = slot.quotes.size();
    while (at && slot.quotes[at - 1].month > m) at--;
    bool is_there = at && slot.quotes[at - 1].month == m;
    if (is_there && slot.quotes[at - 1].price == price) return give(slot.quotes[at - 1].receipt);
    if (int fault = fault_of(slot, m, now)) return refuse(fault);
    size_t before = is_there ? at - 1 : at;
    if (before && is_outside(items[slot.item], slot.quotes[before - 1].price, price, is_confirmed)) return;
    if (collector.greatest >= MOST_RECEIPTS) return refuse(27);
    Quote quote = {m, price, ++collector.greatest};
    if (is_there) slot.quotes[at - 1] = quote;
    else slot.quotes.insert(slot.quotes.begin() + at, quote);
    give(quote.receipt);
}

using Fields = vector<string_view>;

static void quote(const Fields &fields, long now) {
    uint64_t high, low;
    long slot, price;
    int m;
    bool is_confirmed = fields.size() == 8;
    if ((fields.size() != 7 && !is_confirmed) || !key(fields[1], high, low) || !number(fields[3], 400, slot) || !slot
        || !month(fields[4], m) || fields[5] != "price" || !number(fields[6], 100000000, price) || !price)
        return refuse(10);
    Key &found = place_of(high, low);
    if (!found.collector) return refuse(11);
    put(collectors[found.collector], now, slot, m, price, is_confirmed);
}

// ---- the desk's records, which come in order and are right

static long count_in(string_view text) {
    long value = 0;
    number(text, GREATEST, value);
    return value;
}

static void assign(const Fields &fields) {
    auto item = item_numbers.find(string(fields[6]));
    if (item == item_numbers.end()) return refuse(41);
    auto &slots = collectors[count_in(fields[3])].slots;
    size_t slot = count_in(fields[4]);
    if (slots.size() < slot) slots.resize(slot);
    slots[slot - 1].item = item->second;
    month(fields[7], slots[slot - 1].first);
    month(fields[8], slots[slot - 1].last);
    reply("{\"done\":true}\n", 14);
}

static void desk(const Fields &fields) {
    uint64_t high, low;
    int m;
    if (fields[2] == "assign") return assign(fields);
    if (fields[2] == "item") {
        item_numbers[string(fields[3])] = items.size();
        items.push_back({count_in(fields[6]), count_in(fields[7])});
    } else if (fields[2] == "collector" && key(fields[4], high, low)) {
        place_of(high, low) = {high, low, int(count_in(fields[3]))};
    } else if (fields[2] == "calendar" && month(fields[3], m)) {
        calendar[m] = {true, count_in(fields[4]), count_in(fields[5])};
    }
    reply("{\"done\":true}\n", 14);
}

// ---- lines

static void split_plain(char *line, char *end, Fields &fields) {
    for (char *comma; (comma = static_cast<char *>(memchr(line, ',', end - line))); line = comma + 1)
        fields.emplace_back(line, comma - line);
    fields.emplace_back(line, end - line);
}

// The fields of a line; those with quotes lose these where they stand.
static void split(char *line, char *end, Fields &fields) {
    fields.clear();
    if (!memchr(line, '"', end - line)) return split_plain(line, end, fields);
    for (char *at = line;; at++) {
        char *begin = at, *kept = at;
        for (bool is_inside = false; at < end && (is_inside || *at != ','); at++) {
            if (*at == '"') is_inside = !is_inside;
            else *kept++ = *at;
        }
        fields.emplace_back(begin, kept - begin);
        if (at == end) return;
    }
}

static void carry_out(const Fields &fields) {
    long now;
    if (fields.size() < 3 || !number(fields[0], GREATEST, now)) return refuse(10);
    if (fields[2] == "quote") quote(fields, now);
    else desk(fields);
}

int main(int count, char **words) {
    static char buffer[1 << 16];
    by_line = count > 1 && string_view(words[1]) == "--line";
    Fields fields;
    for (size_t have = 0;;) {
        ssize_t got = read(0, buffer + have, sizeof buffer - have);
        if (got <= 0) break;
        have += got;
        char *line = buffer, *stop = buffer + have;
        while (char *end = static_cast<char *>(memchr(line, '\n', stop - line))) {
            split(line, end, fields);
            carry_out(fields);
            line = end + 1;
        }
        have = stop - line;
        memmove(buffer, line, have);
    }
    flush(out, filled);
}
