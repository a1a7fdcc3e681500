// The memtable as C++ LevelDB has it, in the same shape as ours.rt.txt: an arena, a skip list of height 12 whose nodes hold a pointer to the bytes
// of their entry, and one comparison of user keys by memcmp. For each count of the command line it prints lines `ROW COUNT NANOSECONDS BYTES`.
#include <atomic>
#include <chrono>
#include <cstdint>
#include <cstdio>
#include <cstdlib>
#include <cstring>
#include <string>
#include <vector>

// Memory in blocks of 4096 bytes, freed together. What is larger than a quarter of one gets a block of its own.
class Arena {
  public:
    ~Arena() {
        for (char *block : blocks_) delete[] block;
    }

    char *take(size_t bytes) {
        if (bytes > left_) return refill(bytes);
        char *at = next_;
        next_ += bytes;
        left_ -= bytes;
        return at;
    }

    char *take_aligned(size_t bytes) {
        size_t over = reinterpret_cast<uintptr_t>(next_) & 7;
        size_t skip = over == 0 ? 0 : 8 - over;
        if (skip + bytes > left_) return refill(bytes);
        char *at = next_ + skip;
        next_ += skip + bytes;
        left_ -= skip + bytes;
        return at;
    }

  private:
    char *refill(size_t bytes) {
        bool alone = bytes > 1024;
        char *block = new char[alone ? bytes : 4096];
        blocks_.push_back(block);
        if (alone) return block;
        next_ = block + bytes;
        left_ = 4096 - bytes;
        return block;
    }

    char *next_ = nullptr;
    size_t left_ = 0;
    std::vector<char *> blocks_;
};

static char *put_varint(char *to, uint32_t number) {
    while (number >= 128) {
        *to++ = static_cast<char>(number | 128);
        number >>= 7;
    }
    *to++ = static_cast<char>(number);
    return to;
}

static const char *get_varint(const char *from, uint32_t *number) {
    uint32_t byte = static_cast<unsigned char>(*from);
    if (byte < 128) {
        *number = byte;
        return from + 1;
    }
    uint32_t sum = 0;
    for (int shift = 0; shift <= 28; shift += 7) {
        byte = static_cast<unsigned char>(*from++);
        sum |= (byte & 127) << shift;
        if (byte < 128) break;
    }
    *number = sum;
    return from;
}

static uint64_t tag_of(const char *at) {
    uint64_t tag;
    memcpy(&tag, at, 8);
    return tag;
}

struct Bytes {
    const char *at;
    size_t length;
};

static Bytes sized(const char *from) {
    uint32_t length;
    const char *at = get_varint(from, &length);
    return {at, length};
}

// Comparators of user keys are called through a table of methods, as they are in LevelDB.
class Comparator {
  public:
    virtual ~Comparator() = default;
    virtual int compare(Bytes a, Bytes b) const = 0;
};

class BytewiseComparator : public Comparator {
  public:
    int compare(Bytes a, Bytes b) const override {
        size_t both = a.length < b.length ? a.length : b.length;
        int order = memcmp(a.at, b.at, both);
        if (order != 0) return order;
        return a.length < b.length ? -1 : a.length > b.length;
    }
};

// The user key rising, then the tag falling.
struct EntryOrder {
    const Comparator *users;

    int operator()(const char *a, const char *b) const {
        Bytes x = sized(a), y = sized(b);
        int order = users->compare({x.at, x.length - 8}, {y.at, y.length - 8});
        if (order != 0) return order;
        uint64_t p = tag_of(x.at + x.length - 8), q = tag_of(y.at + y.length - 8);
        return p > q ? -1 : p < q;
    }
};

class SkipList {
  public:
    struct Node {
        const char *entry;
        std::atomic<Node *> links[1];

        Node *next(int height) const { return links[height].load(std::memory_order_acquire); }
        void link(int height, Node *to) { links[height].store(to, std::memory_order_release); }
    };

    SkipList(EntryOrder order, Arena *arena) : order_(order), arena_(arena), head_(make(nullptr, kHeights)) {
        for (int i = 0; i < kHeights; i++) head_->link(i, nullptr);
    }

    void insert(const char *entry) {
        Node *before[kHeights];
        at_or_after(entry, before);
        int height = 1;
        while (height < kHeights && draw() % 4 == 0) height++;
        for (; height_ < height; height_++) before[height_] = head_;
        Node *node = make(entry, height);
        for (int i = 0; i < height; i++) {
            node->links[i].store(before[i]->links[i].load(std::memory_order_relaxed), std::memory_order_relaxed);
            before[i]->link(i, node);
        }
    }

    Node *at_or_after(const char *entry, Node **before) const {
        Node *node = head_;
        int height = height_ - 1;
        for (;;) {
            Node *next = node->next(height);
            if (next != nullptr && order_(next->entry, entry) < 0) {
                node = next;
                continue;
            }
            if (before != nullptr) before[height] = node;
            if (height == 0) return next;
            height--;
        }
    }

    Node *first() const { return head_->next(0); }

  private:
    static const int kHeights = 12;

    Node *make(const char *entry, int height) {
        char *room = arena_->take_aligned(sizeof(Node) + sizeof(std::atomic<Node *>) * (height - 1));
        Node *node = new (room) Node;
        node->entry = entry;
        return node;
    }

    // The generator of Park and Miller.
    uint32_t draw() {
        seed_ = static_cast<uint32_t>(static_cast<uint64_t>(seed_) * 16807 % 2147483647);
        return seed_;
    }

    EntryOrder order_;
    Arena *arena_;
    Node *head_;
    int height_ = 1;
    uint32_t seed_ = 0xdeadbeef & 0x7fffffff;
};

class MemTable {
  public:
    explicit MemTable(const Comparator *users) : users_(users), list_({users}, &arena_) {}

    void add(uint64_t sequence, Bytes key, Bytes value) {
        char front[5], back[5];
        size_t front_length = put_varint(front, key.length + 8) - front;
        size_t back_length = put_varint(back, value.length) - back;
        char *entry = arena_.take(front_length + key.length + 8 + back_length + value.length);
        char *to = entry;
        memcpy(to, front, front_length);
        to += front_length;
        memcpy(to, key.at, key.length);
        to += key.length;
        uint64_t tag = sequence << 8 | 1;
        memcpy(to, &tag, 8);
        to += 8;
        memcpy(to, back, back_length);
        to += back_length;
        memcpy(to, value.at, value.length);
        list_.insert(entry);
    }

    // Copies the newest value at or below the sequence.
    bool get(Bytes key, uint64_t sequence, std::string *value) const {
        char wanted[200];
        char *to = put_varint(wanted, key.length + 8);
        memcpy(to, key.at, key.length);
        uint64_t tag = sequence << 8 | 1;
        memcpy(to + key.length, &tag, 8);
        SkipList::Node *node = list_.at_or_after(wanted, nullptr);
        if (node == nullptr) return false;
        Bytes found = sized(node->entry);
        if (users_->compare({found.at, found.length - 8}, key) != 0) return false;
        if ((tag_of(found.at + found.length - 8) & 255) != 1) return false;
        Bytes stored = sized(found.at + found.length);
        value->assign(stored.at, stored.length);
        return true;
    }

    size_t walk() const {
        size_t bytes = 0;
        for (SkipList::Node *node = list_.first(); node != nullptr; node = node->next(0)) {
            Bytes key = sized(node->entry);
            bytes += key.length + sized(key.at + key.length).length;
        }
        return bytes;
    }

  private:
    const Comparator *users_;
    Arena arena_;
    SkipList list_;
};

static std::vector<char> keys(uint64_t count, bool random, uint64_t more) {
    std::vector<char> all(count * 16);
    uint64_t state = 301;
    for (uint64_t i = 0; i < count; i++) {
        state = state * 6364136223846793005u + 1442695040888963407u;
        uint64_t rest = 2 * (random ? (state >> 33) % count : i) + more;
        for (int k = 15; k >= 0; k--, rest /= 10) all[16 * i + k] = static_cast<char>('0' + rest % 10);
    }
    return all;
}

static uint64_t now() {
    return std::chrono::duration_cast<std::chrono::nanoseconds>(std::chrono::steady_clock::now().time_since_epoch()).count();
}

static void add_all(MemTable *table, const std::vector<char> &all, Bytes value) {
    for (uint64_t i = 0; i < all.size() / 16; i++) table->add(i, {&all[16 * i], 16}, value);
}

static uint64_t get_all(const MemTable &table, const std::vector<char> &all) {
    std::string value;
    uint64_t bytes = 0;
    for (uint64_t i = 0; i < all.size() / 16; i++) {
        if (table.get({&all[16 * i], 16}, (1ull << 56) - 1, &value)) bytes += value.size();
    }
    return bytes;
}

// Times a row, and prints it.
template <typename Row>
static void print_row(const char *name, uint64_t count, Row row) {
    uint64_t start = now();
    uint64_t bytes = row();
    printf("%s %lu %lu %lu\n", name, count, now() - start, bytes);
}

int main(int argc, char **argv) {
    BytewiseComparator users;
    std::string text(100, 'v');
    Bytes value = {text.data(), text.size()};
    for (int i = 1; i < argc; i++) {
        uint64_t count = strtoull(argv[i], nullptr, 10);
        std::vector<char> rising = keys(count, false, 0), random = keys(count, true, 0), missing = keys(count, true, 1);
        MemTable table(&users);
        print_row("add_random", count, [&] { add_all(&table, random, value); return 0; });
        print_row("get_hit", count, [&] { return get_all(table, random); });
        print_row("get_miss", count, [&] { return get_all(table, missing); });
        print_row("walk", count, [&] { return table.walk(); });
        MemTable other(&users);
        print_row("add_in_order", count, [&] { add_all(&other, rising, value); return 0; });
    }
    return 0;
}
