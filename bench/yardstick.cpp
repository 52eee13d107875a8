// A yardstick for `cpi replay` in memory: the same records in, the same reply lines out, for the words item, outlet,
// collector, assign, calendar, quote (of a price) and quotes, with the checks of an office that a valid input meets,
// but with no proofs, no general CSV or JSON library and no handling of faults. It measures; it is no product.
//
//   yardstick < RECORDS            the replies go out in large writes
//   yardstick --line < RECORDS     each reply goes out by a write of its own, as cpi's do
//
// Build: g++ -O2 -std=c++17 yardstick.cpp -o yardstick
#include <charconv>
#include <cstdio>
#include <cstring>
#include <map>
#include <string>
#include <string_view>
#include <unistd.h>
#include <unordered_map>
#include <utility>
#include <vector>

using std::map;
using std::string;
using std::string_view;
using std::vector;

struct Item { string text, unit; long low, high; };
struct Quote { long price, receipt; };
struct Slot { long outlet; string item; int first, last; map<int, Quote> quotes; };
struct Collector { string key; map<long, Slot> slots; long greatest = 0; };
struct Calendar { long opens, closes, publishes; };

static map<string, Item> items;
static map<long, string> outlets;
static map<long, Collector> collectors;
static std::unordered_map<string, long> numbers;  // a collector's number, by its key
static map<int, Calendar> calendar;
static string out;  // replies that have not gone out yet

static bool number(string_view text, long &value) {
    auto end = text.data() + text.size();
    auto read = std::from_chars(text.data(), end, value);
    bool is_plain = text.size() == 1 || (text.size() > 1 && text[0] != '0');
    return read.ec == std::errc() && read.ptr == end && is_plain && text[0] != '-';
}

// a month as year * 100 + month
static bool month(string_view text, int &value) {
    long year, in_year;
    if (text.size() != 7 || text[4] != '-') return false;
    if (!number(text.substr(0, 4), year)) return false;
    if (!number(text.substr(text[5] == '0' ? 6 : 5), in_year)) return false;
    value = int(year * 100 + in_year);
    return 1 <= in_year && in_year <= 12;
}

static void refuse(int why) {
    char line[64];
    out.append(line, snprintf(line, sizeof line, "{\"refused\":%d}\n", why));
}

static void receipt(long given) {
    char line[64];
    out.append(line, snprintf(line, sizeof line, "{\"receipt\":%ld}\n", given));
}

static void done() { out += "{\"done\":true}\n"; }

static const Quote *last_price(const Slot &slot, int at) {
    auto next = slot.quotes.lower_bound(at);
    return next == slot.quotes.begin() ? nullptr : &std::prev(next)->second;
}

// whether the price lies within the item's tolerance of the last one; if not, it is refused
static bool is_inside(const Slot &slot, int at, long price) {
    const Quote *last = last_price(slot, at);
    if (!last) return true;
    const Item &item = items[slot.item];
    long low = (last->price * item.low + 999) / 1000, high = last->price * item.high / 1000;
    if (low <= price && price <= high) return true;
    char line[128];
    const char *form = "{\"high\":%ld,\"last\":%ld,\"low\":%ld,\"refused\":26}\n";
    out.append(line, snprintf(line, sizeof line, form, high, last->price, low));
    return false;
}

static void submit(Collector &collector, long now, long number, int at, long price, bool is_confirmed) {
    auto found = collector.slots.find(number);
    if (found == collector.slots.end()) return refuse(20);
    Slot &slot = found->second;
    auto stored = slot.quotes.find(at);
    if (stored != slot.quotes.end() && stored->second.price == price) return receipt(stored->second.receipt);
    auto window = calendar.find(at);
    if (window == calendar.end()) return refuse(21);
    if (at < slot.first || at > slot.last) return refuse(22);
    if (now < window->second.opens) return refuse(23);
    if (now >= window->second.closes) return refuse(24);
    if (!is_confirmed && !is_inside(slot, at, price)) return;
    slot.quotes[at] = {price, ++collector.greatest};
    receipt(collector.greatest);
}

static void list(const Collector &collector, int first, int last) {
    map<std::pair<int, long>, Quote> rows;
    for (auto &slot : collector.slots)
        for (auto &quote : slot.second.quotes)
            if (first <= quote.first && quote.first <= last) rows[{quote.first, slot.first}] = quote.second;
    out += "{\"quotes\":[";
    const char *comma = "";
    for (auto &row : rows) {
        char line[128];
        int at = row.first.first;
        const char *form = "%s[%ld,\"%04d-%02d\",\"price\",%ld,%ld]";
        out.append(line, snprintf(line, sizeof line, form, comma, row.first.second, at / 100, at % 100,
                                  row.second.price, row.second.receipt));
        comma = ",";
    }
    out += "]}\n";
}

static void collect(const vector<string_view> &field, long now) {
    auto known = numbers.find(string(field[1]));
    if (known == numbers.end()) return refuse(11);
    Collector &collector = collectors[known->second];
    long slot, price;
    int first, last;
    if (field[2] == "quote" && field.size() >= 7) {
        bool reads = number(field[3], slot) && month(field[4], first) && field[5] == "price" && number(field[6], price);
        return reads ? submit(collector, now, slot, first, price, field.size() == 8) : refuse(10);
    }
    if (field[2] == "quotes" && field.size() == 5 && month(field[3], first) && month(field[4], last))
        return list(collector, first, last);
    refuse(10);
}

static void command(const vector<string_view> &field) {
    string_view word = field[2];
    long n, m, o;
    int first, last;
    if (word == "item" && field.size() == 8 && number(field[6], n) && number(field[7], m)) {
        items[string(field[3])] = {string(field[4]), string(field[5]), n, m};
        return done();
    }
    if (word == "outlet" && field.size() == 5 && number(field[3], n)) {
        outlets[n] = field[4];
        return done();
    }
    if (word == "collector" && field.size() == 5 && number(field[3], n)) {
        collectors[n].key = field[4];
        numbers[string(field[4])] = n;
        return done();
    }
    if (word == "assign" && field.size() == 9 && number(field[3], n) && number(field[4], m) && number(field[5], o) &&
        month(field[7], first) && month(field[8], last)) {
        collectors[n].slots[m] = {o, string(field[6]), first, last, {}};
        return done();
    }
    if (word == "calendar" && field.size() == 7 && month(field[3], first) && number(field[4], n) &&
        number(field[5], m) && number(field[6], o)) {
        calendar[first] = {n, m, o};
        return done();
    }
    refuse(10);
}

// Reads the fields of the record at `at`, and returns where it ends. Quoted fields are kept in `held`.
static size_t record(const string &in, size_t at, vector<string_view> &field, vector<string> &held) {
    field.clear();
    held.clear();
    held.reserve(64);
    for (;;) {
        if (at < in.size() && in[at] == '"') {
            string text;
            for (++at; at < in.size(); ++at) {
                if (in[at] == '"' && (at + 1 >= in.size() || in[at + 1] != '"')) break;
                if (in[at] == '"') ++at;
                text += in[at];
            }
            if (at < in.size()) ++at;
            held.push_back(text);
            field.push_back(held.back());
        } else {
            size_t end = at;
            while (end < in.size() && in[end] != ',' && in[end] != '\n' && in[end] != '\r') ++end;
            field.push_back(string_view(in).substr(at, end - at));
            at = end;
        }
        if (at >= in.size() || in[at] != ',') return at;
        ++at;
    }
}

static bool write_out() {
    const char *from = out.data();
    size_t left = out.size();
    while (left > 0) {
        ssize_t wrote = write(1, from, left);
        if (wrote < 0) return false;
        from += wrote;
        left -= wrote;
    }
    out.clear();
    return true;
}

int main(int count, char **words) {
    const bool by_line = count > 1 && strcmp(words[1], "--line") == 0;
    static char buffer[1 << 20];
    string in;
    ssize_t size;
    while ((size = read(0, buffer, sizeof buffer)) > 0) in.append(buffer, size);
    vector<string_view> field;
    vector<string> held;
    for (size_t at = 0; at < in.size();) {
        if (in[at] == '\n' || in[at] == '\r') {
            ++at;
            continue;
        }
        at = record(in, at, field, held);
        long now;
        if (field.size() < 3 || !number(field[0], now)) refuse(10);
        else if (field[1] == "desk") command(field);
        else collect(field, now);
        if ((by_line || out.size() > 1 << 16) && !write_out()) return 1;
    }
    return write_out() ? 0 : 1;
}
