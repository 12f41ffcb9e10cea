// What simdjson's on-demand interface takes for the query of bench/beside: the least that a C++ programmer needs.
//
// - The file is read into memory with the padding that simdjson wants behind it, a part by each thread. Then each thread
//   takes windows of 1 MiB by a counter, has one parser, and parses line by line: a broken line costs no other line.
// - Members are looked up by name as they come. On demand is lax: it checks the UTF-8 of a line, but not the syntax of
//   what it skips, so some lines that are no JSON are counted here.
// - The keys of the groups lie in one list of bytes for each thread and shard, in tables of open addressing. Behind the
//   last window each thread merges and sorts one shard, and ROLLUP is one pass over the sorted rows, as in typed.rs.
//
// Usage: on_demand THREADS FILE. It answers, over the lines of bench/generate,
// SELECT shop, kind, COUNT(*) AS events, SUM(cents) AS cents FROM lines GROUP BY ROLLUP (shop, kind)
// with the bytes of jlreport's report.

#include <fcntl.h>
#include <simdjson.h>
#include <sys/stat.h>
#include <unistd.h>

#include <algorithm>
#include <atomic>
#include <cstdio>
#include <cstdlib>
#include <cstring>
#include <deque>
#include <memory>
#include <optional>
#include <string>
#include <string_view>
#include <thread>
#include <vector>

using namespace simdjson;
using Text = std::optional<std::string_view>;

constexpr size_t WINDOW = 1 << 20;

struct Group {
    uint64_t events = 0;
    bool has_cents = false;
    __int128 cents = 0;

    void absorb(const Group &other) {
        events += other.events;
        has_cents |= other.has_cents;
        cents += other.cents;
    }
};

struct Row {
    Text shop, kind;
    size_t hash;
    Group group;
};

size_t hash_of(Text text) { return text ? std::hash<std::string_view>{}(*text) : 0x9e3779b97f4a7c15; }
size_t hash_of(Text shop, Text kind) { return hash_of(shop) * 0x9e3779b97f4a7c15 + hash_of(kind); }

// Groups by their keys. The rows lie one behind the other, and the slots have their places, one more, and 0 where free.
class Table {
    std::vector<uint32_t> slots = std::vector<uint32_t>(1024);
    std::deque<std::unique_ptr<char[]>> blocks;
    size_t left = 0;
    char *free = nullptr;

    // A copy of a text that lasts as long as the table.
    Text kept(Text text) {
        if (!text) return text;
        if (text->size() > left) {
            left = std::max<size_t>(1 << 16, text->size());
            blocks.emplace_back(new char[left]);
            free = blocks.back().get();
        }
        char *begin = static_cast<char *>(std::memcpy(free, text->data(), text->size()));
        free += text->size();
        left -= text->size();
        return std::string_view(begin, text->size());
    }

    void grow() {
        slots.assign(slots.size() * 4, 0);
        for (size_t row = 0; row < rows.size(); row++) {
            size_t at = rows[row].hash & (slots.size() - 1);
            while (slots[at]) at = (at + 1) & (slots.size() - 1);
            slots[at] = row + 1;
        }
    }

  public:
    std::vector<Row> rows;

    void add(Text shop, Text kind, size_t hash, const Group &group) {
        size_t at = hash & (slots.size() - 1);
        for (; slots[at]; at = (at + 1) & (slots.size() - 1)) {
            Row &row = rows[slots[at] - 1];
            if (row.hash == hash && row.shop == shop && row.kind == kind) return row.group.absorb(group);
        }
        rows.push_back({kept(shop), kept(kind), hash, group});
        slots[at] = rows.size();
        if (rows.size() * 2 > slots.size()) grow();
    }
};

// The value of a column: false where it is of another type. A member that is missing is NULL.
template <typename T> bool take(simdjson_result<ondemand::value> member, std::optional<T> &to) {
    if (member.error() == NO_SUCH_FIELD) return true;
    ondemand::value value;
    if (member.get(value)) return false;
    bool is_null;
    if (value.is_null().get(is_null)) return false;
    T found;
    if (is_null) return true;
    if (value.get(found)) return false;
    to = found;
    return true;
}

struct Part {
    std::vector<Table> shards;
    uint64_t refused = 0;
    ondemand::parser parser;

    explicit Part(size_t count) : shards(count) {}

    bool take_line(padded_string_view line) {
        ondemand::document document;
        ondemand::object object;
        if (parser.iterate(line).get(document) || document.get_object().get(object)) return false;
        Text day, shop, kind;
        std::optional<int64_t> cents;
        std::optional<bool> member;
        if (!take(object["day"], day) || !take(object["shop"], shop) || !take(object["kind"], kind) ||
            !take(object["cents"], cents) || !take(object["member"], member))
            return false;
        size_t hash = hash_of(shop, kind);
        shards[(hash >> 40) % shards.size()].add(shop, kind, hash, {1, cents.has_value(), cents.value_or(0)});
        return true;
    }
};

template <typename Call> void on_each(size_t count, Call call) {
    std::vector<std::thread> others;
    for (size_t index = 1; index < count; index++) others.emplace_back(call, index);
    call(0);
    for (std::thread &other : others) other.join();
}

// Reads a file, a part by each thread: false where it cannot be read.
bool load(const char *path, size_t threads, padded_string &file) {
    int opened = open(path, O_RDONLY);
    struct stat about;
    if (opened < 0 || fstat(opened, &about) < 0) return false;
    file = padded_string(about.st_size);
    std::atomic<bool> is_read = true;
    on_each(threads, [&](size_t index) {
        size_t at = file.size() * index / threads, end = file.size() * (index + 1) / threads;
        while (at < end) {
            ssize_t count = pread(opened, file.data() + at, end - at, at);
            if (count <= 0) is_read = false;
            at = count <= 0 ? end : at + count;
        }
    });
    close(opened);
    return is_read;
}

// Where the first line begins that begins at this place or behind it.
size_t line_start(std::string_view file, size_t at) {
    if (at == 0 || at >= file.size()) return std::min(at, file.size());
    size_t feed = file.find('\n', at - 1);
    return feed == file.npos ? file.size() : feed + 1;
}

void work(const padded_string &file, std::atomic<size_t> &next, Part &part) {
    std::string_view all(file.data(), file.size());
    for (size_t at; (at = next.fetch_add(WINDOW)) < all.size();) {
        size_t end = line_start(all, at + WINDOW);
        for (size_t begin = line_start(all, at); begin < end;) {
            size_t feed = std::min(all.find('\n', begin), all.size());
            size_t capacity = all.size() - begin + SIMDJSON_PADDING;
            if (!part.take_line(padded_string_view(all.data() + begin, feed - begin, capacity))) part.refused++;
            begin = feed + 1;
        }
    }
}

// NULL stands behind all texts.
int order(const Text &one, const Text &other) {
    if (one && other) return one->compare(*other);
    return one.has_value() < other.has_value() ? 1 : one.has_value() > other.has_value() ? -1 : 0;
}

bool is_before(const Row &one, const Row &other) {
    int shops = order(one.shop, other.shop);
    return (shops ? shops : order(one.kind, other.kind)) < 0;
}

// Puts the groups of a shard into the first part's table, and in order.
void merge(std::vector<std::unique_ptr<Part>> &parts, size_t shard) {
    Table &all = parts[0]->shards[shard];
    for (size_t part = 1; part < parts.size(); part++)
        for (const Row &row : parts[part]->shards[shard].rows) all.add(row.shop, row.kind, row.hash, row.group);
    std::sort(all.rows.begin(), all.rows.end(), is_before);
}

std::string digits(__int128 number) {
    unsigned __int128 rest = number < 0 ? -static_cast<unsigned __int128>(number) : number;
    std::string made;
    do made.insert(made.begin(), '0' + rest % 10);
    while (rest /= 10);
    return number < 0 ? "-" + made : made;
}

void put_text(std::string &out, const Text &text) {
    if (!text) {
        out += "\\N";
        return;
    }
    bool is_quoted = text->find_first_of(",\"\n\r") != text->npos;
    if (is_quoted) out += '"';
    if (!text->empty() && text->front() == '\\') out += '\\';
    for (char byte : *text) out.append(byte == '"' ? 2 : 1, byte);
    if (is_quoted) out += '"';
}

void put_row(std::string &out, const Text &shop, const Text &kind, const Group &group) {
    put_text(out, shop);
    out += ',';
    put_text(out, kind);
    out += ',' + std::to_string(group.events) + ',' + (group.has_cents ? digits(group.cents) : "\\N") + '\n';
}

// The report: the rows of (shop, kind), those of (shop), and the one of all lines.
std::string report(const std::vector<const Row *> &rows) {
    std::string out = "shop,kind,events,cents\n";
    std::vector<std::pair<Text, Group>> shops;
    Group all;
    for (const Row *row : rows) {
        put_row(out, row->shop, row->kind, row->group);
        if (shops.empty() || shops.back().first != row->shop) shops.emplace_back(row->shop, Group());
        shops.back().second.absorb(row->group);
        all.absorb(row->group);
    }
    for (auto &[shop, group] : shops) put_row(out, shop, {}, group);
    put_row(out, {}, {}, all);
    return out;
}

int main(int count, char **words) {
    size_t threads = count == 3 ? std::max(1, std::atoi(words[1])) : 0;
    padded_string file;
    if (!threads || !load(words[2], threads, file)) {
        std::fprintf(stderr, "Usage: on_demand THREADS FILE\n");
        return 2;
    }
    std::vector<std::unique_ptr<Part>> parts;
    for (size_t index = 0; index < threads; index++) parts.push_back(std::make_unique<Part>(threads));
    std::atomic<size_t> next = 0;
    on_each(threads, [&](size_t index) { work(file, next, *parts[index]); });
    on_each(threads, [&](size_t index) { merge(parts, index); });
    std::vector<const Row *> rows;
    for (const Table &shard : parts[0]->shards) {
        size_t middle = rows.size();
        for (const Row &row : shard.rows) rows.push_back(&row);
        std::inplace_merge(rows.begin(), rows.begin() + middle, rows.end(),
                           [](const Row *one, const Row *other) { return is_before(*one, *other); });
    }
    std::string out = report(rows);
    uint64_t refused = 0;
    for (const auto &part : parts) refused += part->refused;
    if (refused) std::fprintf(stderr, "%llu lines refused\n", static_cast<unsigned long long>(refused));
    bool is_written = std::fwrite(out.data(), 1, out.size(), stdout) == out.size() && std::fflush(stdout) == 0;
    std::_Exit(is_written ? refused > 0 : 3);
}
