// What tests/snappy_trials does, by C++ Snappy: tools/snappytrials/run compiles and runs it.
// The input and the output are records: a length of four bytes, the lowest first, and so many bytes.
#include <snappy.h>
#include <time.h>

#include <cstdint>
#include <cstdio>
#include <cstdlib>
#include <cstring>
#include <memory>
#include <string>
#include <vector>

static std::vector<std::string> Records() {
    std::string input;
    char part[1 << 16];
    for (size_t n; (n = fread(part, 1, sizeof part, stdin)) > 0;) input.append(part, n);
    std::vector<std::string> records;
    for (size_t at = 0; at + 4 <= input.size();) {
        uint32_t length;
        memcpy(&length, input.data() + at, 4);
        records.push_back(input.substr(at + 4, length));
        at += 4 + length;
    }
    return records;
}

static void Put(const std::string& bytes) {
    const uint32_t length = bytes.size();
    fwrite(&length, 4, 1, stdout);
    fwrite(bytes.data(), 1, length, stdout);
}

// The nanoseconds that a processor has run the program.
static uint64_t Nanos() {
    timespec time;
    if (clock_gettime(CLOCK_PROCESS_CPUTIME_ID, &time)) abort();
    return uint64_t(time.tv_sec) * 1000000000 + uint64_t(time.tv_nsec);
}

// A block is stored and read in the way of LevelDB: into one string that grows once, and into fresh memory each time.
static void Time(const std::vector<std::string>& texts, int rounds) {
    std::vector<std::string> stored;
    for (const std::string& text : texts) {
        std::string to;
        snappy::Compress(text.data(), text.size(), &to);
        stored.push_back(to);
    }
    for (int round = 0; round < rounds; round++) {
        size_t put = 0, read = 0;
        std::string to;
        const uint64_t start = Nanos();
        for (const std::string& text : texts) {
            to.resize(snappy::MaxCompressedLength(text.size()));
            size_t length;
            snappy::RawCompress(text.data(), text.size(), &to[0], &length);
            to.resize(length);
            put += to.size();
            to.clear();
        }
        const uint64_t middle = Nanos();
        for (const std::string& bytes : stored) {
            size_t length = 0;
            if (!snappy::GetUncompressedLength(bytes.data(), bytes.size(), &length)) abort();
            char* text = new char[length];
            if (!snappy::RawUncompress(bytes.data(), bytes.size(), text)) abort();
            read += length;
            delete[] text;
        }
        const uint64_t end = Nanos();
        printf("%llu %llu %zu %zu\n", (unsigned long long)(middle - start), (unsigned long long)(end - middle), put, read);
    }
}

int main(int argc, char** argv) {
    const std::string call = argc > 1 ? argv[1] : "";
    const std::vector<std::string> records = Records();
    if (call == "time") {
        Time(records, argc > 2 ? atoi(argv[2]) : 1);
        return 0;
    }
    for (const std::string& bytes : records) {
        std::string to;
        if (call == "encode") {
            snappy::Compress(bytes.data(), bytes.size(), &to);
        } else {
            size_t length = 0;
            const bool sized = snappy::GetUncompressedLength(bytes.data(), bytes.size(), &length) && length <= (size_t{1} << 30);
            const bool read = sized && snappy::Uncompress(bytes.data(), bytes.size(), &to);
            if (!read) to.clear();
            fputc(read, stdout);
        }
        Put(to);
    }
}
