// A yardstick for the freeze of a month: the same plan and quotes as tests/lib/by_rule.py makes for a nation, and
// the same tables, computed plainly with maps; with no proofs, no limits looked at and no handling of faults. It
// measures; it is no product. It prints the tables as CSV, and the seconds of each month to standard error.
//
//   month            maps by code and by series
//   month --flat     arrays in the order of series, with numbers in place of codes: the limit of such a computation
//
// Build: g++ -O2 -std=c++17 month.cpp -o month
#include <algorithm>
#include <array>
#include <chrono>
#include <climits>
#include <cstdio>
#include <cstdlib>
#include <map>
#include <optional>
#include <string>
#include <unordered_map>
#include <utility>
#include <vector>

using std::map;
using std::optional;
using std::string;
using std::unordered_map;
using std::vector;
using wide = __int128;

static const int COUNT = 6532, SUBCLASSES = 130, SERIES = 200000, MONTHS = 3;
static const long HUNDRED = 100000000;

enum class Kind { price, missing, comparable, other };

struct Mark { Kind kind; long price; };
struct Quote { int series; string item; int last_month; Mark mark; };
struct Node { string title; long weight = 0; };
struct Plan { map<string, Node> nodes; map<string, long> weights; unordered_map<string, string> places; };
struct Carried { int series; string item; int last_month; long ticks, up, down; bool is_imputed; };
struct Level {
    string code, title;
    long weight, within, chained, month_change;
    optional<long> year_change;
    bool is_imputed;
};
struct Release { vector<Quote> frozen; vector<Carried> carried; vector<Level> levels; };

// months are year * 12 + month - 1
static const int FIRST_MONTH = 2025 * 12 + 11;
static map<int, Release> releases;

// ---- what is made by a rule

static string aggregate(int n) {
    int place = n % SUBCLASSES;
    char code[64];
    snprintf(code, sizeof code, "%02d.%d.%d.%d-%02d", 1 + place % 13, place / 13 % 10, place / 130 % 10,
             place / 1300 % 10, 1 + n / SUBCLASSES);
    return code;
}

static string item_code(int n) { return "I" + std::to_string(n); }

static vector<string> codes_above(const string &aggregate) {
    return {"00", aggregate.substr(0, 2), aggregate.substr(0, 4), aggregate.substr(0, 6), aggregate.substr(0, 8)};
}

static Plan made_plan() {
    Plan plan;
    for (int n = 0; n < COUNT; n++) {
        string code = aggregate(n);
        long weight = 1000000 / COUNT + (n < 1000000 % COUNT) + (n % 2 ? -1 : 1) * (n / 2 % 7);
        plan.weights[code] = weight;
        plan.places[item_code(n)] = code;
        plan.nodes[code] = {"Title of " + code, weight};
        for (auto &above : codes_above(code)) {
            plan.nodes[above].title = "Title of " + above;
            plan.nodes[above].weight += weight;
        }
    }
    return plan;
}

static Mark made_mark(int n, int turn) {
    if ((n % 1009 + turn) % 17 == 0) return {Kind::missing, 0};
    if ((n % 1013 + turn) % 41 == 0) return {Kind::other, 500 + n % 977};
    return {(n % 1013 + turn) % 43 == 0 ? Kind::comparable : Kind::price, 1000 + n % 977 + turn};
}

static vector<Quote> made_quotes(int turn) {
    vector<Quote> quotes;
    for (int n = 0; n < SERIES; n++) {
        if ((n % 1019 + turn) % 97 == 0) continue;
        int last_month = (n % 23 == 0 ? 2026 : 2027) * 12 + 11;
        quotes.push_back({n, item_code(n % COUNT), last_month, made_mark(n, turn)});
    }
    return quotes;
}

// ---- the release of a month

static long rounded(wide a, wide b) { return long((2 * a + b) / (2 * b)); }

static long change(long before, long now) {
    long size = rounded(wide(1000) * labs(now - before), before);
    return now >= before ? size : -size;
}

// by series: the base in the link month, observed there or else carried to it
static unordered_map<int, Carried> bases_of(int december) {
    unordered_map<int, Carried> bases;
    const Release &link = releases[december];
    for (auto &row : link.carried) bases[row.series] = row;
    for (auto &quote : link.frozen) {
        if (quote.mark.kind == Kind::missing) continue;
        long ticks = 10000 * quote.mark.price;
        bases[quote.series] = {quote.series, quote.item, quote.last_month, ticks, 10000, 1, false};
    }
    return bases;
}

struct Row { const Carried *base, *before; Mark mark; bool was_observed; };

static map<string, vector<Row>> samples_of(const Plan &plan, int month, const unordered_map<int, Carried> &bases,
                                           const unordered_map<int, Carried> &before, const vector<Quote> &frozen) {
    unordered_map<int, Mark> now, earlier;
    for (auto &quote : frozen) now[quote.series] = quote.mark;
    for (auto &quote : releases[month - 1].frozen) earlier[quote.series] = quote.mark;
    map<string, vector<Row>> samples;
    for (auto &[series, base] : bases) {
        auto place = plan.places.find(base.item);
        if (place == plan.places.end() || base.last_month < month / 12 * 12) continue;
        auto found = now.find(series), last = earlier.find(series);
        Mark mark = found == now.end() ? Mark{Kind::missing, 0} : found->second;
        bool was_observed = last != earlier.end() && last->second.kind != Kind::missing;
        samples[place->second].push_back({&base, &before.at(series), mark, was_observed});
    }
    return samples;
}

static bool is_comparable(const Mark &mark) { return mark.kind == Kind::price || mark.kind == Kind::comparable; }

// Carries a sample; its index and whether something was imputed.
static std::pair<long, bool> carry(const vector<Row> &sample, vector<Carried> &carried) {
    wide now = 0, then = 0, sum = 0, base = 0;
    bool is_imputed = false;
    for (auto &row : sample) {
        if (!is_comparable(row.mark) || !row.was_observed) continue;
        now += rounded(wide(row.mark.price) * row.before->up, row.before->down);
        then += row.before->ticks;
    }
    for (auto &row : sample) {
        Carried next = *row.before;
        next.is_imputed = !is_comparable(row.mark);
        if (next.is_imputed) {
            next.ticks = rounded(wide(next.ticks) * now, then);
            if (row.mark.kind == Kind::other) next.up = next.ticks, next.down = row.mark.price;
        } else {
            next.ticks = rounded(wide(row.mark.price) * next.up, next.down);
        }
        sum += next.ticks;
        base += row.base->ticks;
        is_imputed = is_imputed || next.is_imputed;
        carried.push_back(next);
    }
    return {rounded(HUNDRED * sum, base), is_imputed};
}

static map<string, long> levels_at(int month) {
    map<string, long> levels;
    auto found = releases.find(month);
    if (found != releases.end())
        for (auto &row : found->second.levels) levels[row.code] = row.chained;
    return levels;
}

struct Sum { wide index = 0; bool is_imputed = false; };

static vector<Level> table_of(const Plan &plan, int month, const map<string, Sum> &sums) {
    auto links = levels_at(month / 12 * 12 - 1), last = levels_at(month - 1), year = levels_at(month - 12);
    vector<Level> levels;
    for (auto &[code, node] : plan.nodes) {
        const Sum &sum = sums.at(code);
        auto linked = links.find(code), earlier = last.find(code), annual = year.find(code);
        long link = linked == links.end() ? HUNDRED : linked->second;
        long within = rounded(sum.index, node.weight), chained = rounded(wide(link) * within, HUNDRED);
        long month_change = change(month % 12 == 0 ? link : earlier->second, chained);
        optional<long> year_change;
        if (month % 12 == 11) year_change = change(link, chained);
        else if (annual != year.end()) year_change = change(annual->second, chained);
        levels.push_back({code, node.title, node.weight, within, chained, month_change, year_change, sum.is_imputed});
    }
    return levels;
}

static Release release_of(const Plan &plan, int month, vector<Quote> frozen) {
    Release release;
    if (month == FIRST_MONTH) {
        release.frozen = std::move(frozen);
        return release;
    }
    auto bases = bases_of(month / 12 * 12 - 1);
    unordered_map<int, Carried> before = bases;
    if (month % 12 != 0) {
        before.clear();
        for (auto &row : releases[month - 1].carried) before[row.series] = row;
    }
    map<string, Sum> sums;
    for (auto &[code, sample] : samples_of(plan, month, bases, before, frozen)) {
        auto [index, is_imputed] = carry(sample, release.carried);
        auto nodes = codes_above(code);
        nodes.push_back(code);
        for (auto &node : nodes) {
            sums[node].index += wide(plan.weights.at(code)) * index;
            sums[node].is_imputed |= is_imputed;
        }
    }
    std::sort(release.carried.begin(), release.carried.end(),
              [](const Carried &a, const Carried &b) { return a.series < b.series; });
    release.levels = table_of(plan, month, sums);
    release.frozen = std::move(frozen);
    return release;
}

// ---- the same by flat arrays

struct FlatQuote { int series, item, last_month; Mark mark; };
struct FlatCarried { int series, item, last_month, down; long ticks, up; };
struct FlatRelease { vector<FlatQuote> frozen; vector<FlatCarried> carried; vector<long> chained; };
struct FlatRow { FlatCarried before; long base; const Mark *mark; bool was_observed; int node; };

// The nodes in the order of their codes, with the node of each item, and the nodes at and above each aggregate.
struct FlatPlan {
    vector<string> codes;
    vector<Node> nodes;
    vector<int> node_of_item;
    vector<std::array<int, 6>> paths;
};

static map<int, FlatRelease> flat_releases;

static FlatPlan flat_plan(const Plan &plan) {
    FlatPlan flat;
    map<string, int> numbers;
    for (auto &[code, node] : plan.nodes) {
        numbers[code] = flat.codes.size();
        flat.codes.push_back(code);
        flat.nodes.push_back(node);
    }
    flat.paths.resize(flat.codes.size());
    for (int n = 0; n < COUNT; n++) {
        string code = aggregate(n);
        int number = numbers[code], step = 0;
        flat.node_of_item.push_back(number);
        for (auto &above : codes_above(code)) flat.paths[number][step++] = numbers[above];
        flat.paths[number][step] = number;
    }
    return flat;
}

static vector<FlatQuote> flat_quotes(int turn) {
    vector<FlatQuote> quotes;
    for (auto &it : made_quotes(turn))
        quotes.push_back({it.series, atoi(it.item.c_str() + 1), it.last_month, it.mark});
    return quotes;
}

// The bases of the link month in the order of their series: what was observed in it, or else carried to it.
static vector<FlatRow> flat_bases(const FlatPlan &plan, const FlatRelease &link, int january) {
    vector<FlatRow> rows;
    rows.reserve(link.frozen.size() + link.carried.size());
    size_t c = 0, q = 0;
    while (c < link.carried.size() || q < link.frozen.size()) {
        int carried = c < link.carried.size() ? link.carried[c].series : INT_MAX;
        int quoted = q < link.frozen.size() ? link.frozen[q].series : INT_MAX;
        const FlatQuote *quote = quoted <= carried ? &link.frozen[q++] : nullptr;
        const FlatCarried *kept = carried <= quoted ? &link.carried[c++] : nullptr;
        FlatCarried base;
        if (quote && quote->mark.kind != Kind::missing)
            base = {quote->series, quote->item, quote->last_month, 1, 10000 * quote->mark.price, 10000};
        else if (kept) base = *kept;
        else continue;
        if (base.last_month >= january)
            rows.push_back({base, base.ticks, nullptr, false, plan.node_of_item[base.item]});
    }
    return rows;
}

// The quote of a series, behind those of the series below it.
static const FlatQuote *quote_of(const vector<FlatQuote> &quotes, size_t &at, int series) {
    while (at < quotes.size() && quotes[at].series < series) at++;
    return at < quotes.size() && quotes[at].series == series ? &quotes[at] : nullptr;
}

static bool is_like(const FlatRow &row) { return row.mark && is_comparable(*row.mark); }

// Puts the price before and the mark of the month into each row, and sums what is matched, by node.
static void match(vector<FlatRow> &rows, const FlatRelease &last, const vector<FlatQuote> &frozen, bool is_january,
                  vector<long> &now, vector<long> &then) {
    size_t c = 0, earlier = 0, current = 0;
    for (auto &row : rows) {
        int series = row.before.series;
        if (!is_january) {
            while (last.carried[c].series < series) c++;
            row.before = last.carried[c];
        }
        auto before = quote_of(last.frozen, earlier, series), quote = quote_of(frozen, current, series);
        row.was_observed = before && before->mark.kind != Kind::missing;
        row.mark = quote ? &quote->mark : nullptr;
        if (!is_like(row) || !row.was_observed) continue;
        now[row.node] += rounded(wide(row.mark->price) * row.before.up, row.before.down);
        then[row.node] += row.before.ticks;
    }
}

static FlatCarried carry(const FlatRow &row, const vector<long> &now, const vector<long> &then) {
    FlatCarried next = row.before;
    if (is_like(row)) {
        next.ticks = rounded(wide(row.mark->price) * next.up, next.down);
    } else {
        next.ticks = rounded(wide(next.ticks) * now[row.node], then[row.node]);
        if (row.mark && row.mark->kind == Kind::other) next.up = next.ticks, next.down = row.mark->price;
    }
    return next;
}

static vector<Sum> flat_sums(const FlatPlan &plan, const vector<FlatRow> &rows, FlatRelease &release,
                             const vector<long> &now, const vector<long> &then) {
    vector<wide> current(plan.codes.size()), base(plan.codes.size());
    vector<char> is_imputed(plan.codes.size());
    release.carried.reserve(rows.size());
    for (auto &row : rows) {
        release.carried.push_back(carry(row, now, then));
        current[row.node] += release.carried.back().ticks;
        base[row.node] += row.base;
        is_imputed[row.node] |= !is_like(row);
    }
    vector<Sum> sums(plan.codes.size());
    for (int own : plan.node_of_item) {
        long index = rounded(HUNDRED * current[own], base[own]);
        for (int node : plan.paths[own]) {
            sums[node].index += wide(plan.nodes[own].weight) * index;
            sums[node].is_imputed |= is_imputed[own];
        }
    }
    return sums;
}

static vector<Level> flat_table(const FlatPlan &plan, int month, const vector<Sum> &sums, FlatRelease &release) {
    auto &link = flat_releases[month / 12 * 12 - 1].chained, &last = flat_releases[month - 1].chained;
    vector<Level> levels;
    levels.reserve(plan.codes.size());
    for (size_t n = 0; n < plan.codes.size(); n++) {
        long linked = link.empty() ? HUNDRED : link[n], within = rounded(sums[n].index, plan.nodes[n].weight);
        long chained = rounded(wide(linked) * within, HUNDRED);
        release.chained.push_back(chained);
        levels.push_back({plan.codes[n], plan.nodes[n].title, plan.nodes[n].weight, within, chained,
                          change(month % 12 == 0 ? linked : last[n], chained), {}, sums[n].is_imputed});
    }
    return levels;
}

// The table of a month; none of the months here is a year after another one.
static vector<Level> flat_release(const FlatPlan &plan, int month, vector<FlatQuote> frozen) {
    FlatRelease &release = flat_releases[month];
    release.frozen = std::move(frozen);
    if (month == FIRST_MONTH) return {};
    auto rows = flat_bases(plan, flat_releases[month / 12 * 12 - 1], month / 12 * 12);
    vector<long> now(plan.codes.size()), then(plan.codes.size());
    match(rows, flat_releases[month - 1], release.frozen, month % 12 == 0, now, then);
    return flat_table(plan, month, flat_sums(plan, rows, release, now, then), release);
}

// ---- the table as CSV

static string tenths(optional<long> number) {
    if (!number) return "";
    return (*number < 0 ? "-" : "") + std::to_string(labs(*number) / 10) + "." + std::to_string(labs(*number) % 10);
}

static void print(const Level &row) {
    printf("%s,%ld,%ld.%06ld,%ld.%06ld,%s,%s,%d,%s\n", row.code.c_str(), row.weight, row.within / 1000000,
           row.within % 1000000, row.chained / 1000000, row.chained % 1000000, tenths(row.month_change).c_str(),
           tenths(row.year_change).c_str(), row.is_imputed, row.title.c_str());
}

static void tell(int month, std::chrono::steady_clock::time_point begin) {
    std::chrono::duration<double> took = std::chrono::steady_clock::now() - begin;
    fprintf(stderr, "%d-%02d %f\n", month / 12, month % 12 + 1, took.count());
}

static void freeze(const Plan &plan, int month, vector<Quote> frozen) {
    auto begin = std::chrono::steady_clock::now();
    Release release = release_of(plan, month, std::move(frozen));
    tell(month, begin);
    for (auto &row : release.levels) print(row);
    releases[month] = std::move(release);
}

static void freeze(const FlatPlan &plan, int month, vector<FlatQuote> frozen) {
    auto begin = std::chrono::steady_clock::now();
    auto levels = flat_release(plan, month, std::move(frozen));
    tell(month, begin);
    for (auto &row : levels) print(row);
}

int main(int count, char **words) {
    Plan plan = made_plan();
    FlatPlan flat = flat_plan(plan);
    bool is_flat = count > 1 && string(words[1]) == "--flat";
    for (int turn = 0; turn < MONTHS; turn++) {
        if (is_flat) freeze(flat, FIRST_MONTH + turn, flat_quotes(turn));
        else freeze(plan, FIRST_MONTH + turn, made_quotes(turn));
    }
}
