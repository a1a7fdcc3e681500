// Writes to a store of C++ LevelDB and reads it, row by row, as ours.rt.txt does.
//
//     theirs FOLDER COUNT VALUE_SIZE WRITE_BUFFER_SIZE CACHE_SIZE [verify]     with `verify` it verifies checksums when it reads
#include <algorithm>
#include <chrono>
#include <cstdint>
#include <cstdio>
#include <cstdlib>
#include <iostream>
#include <memory>
#include <string>

#include "leveldb/cache.h"
#include "leveldb/db.h"
#include "leveldb/filter_policy.h"

namespace {

using Clock = std::chrono::steady_clock;

constexpr size_t kBytes = 1 << 20;

void Check(const leveldb::Status& status) {
  if (!status.ok()) {
    std::fprintf(stderr, "theirs: %s\n", status.ToString().c_str());
    std::exit(1);
  }
}

uint64_t Mix(uint64_t number) {
  uint64_t bits = (number + 1) * 0x9E3779B97F4A7C15u;
  bits = (bits ^ bits >> 30) * 0xBF58476D1CE4E5B9u;
  bits = (bits ^ bits >> 27) * 0x94D049BB133111EBu;
  return bits ^ bits >> 31;
}

// A number that `random` has put.
uint64_t Known(uint64_t turn, uint64_t count) { return Mix(Mix(turn) % count) % count; }

// The key of a number; with its point it is one that no number has.
leveldb::Slice KeyOf(uint64_t number, char (&key)[17], size_t length) {
  key[16] = '.';
  for (int i = 15; i >= 0; --i, number /= 10) key[i] = static_cast<char>('0' + number % 10);
  return leveldb::Slice(key, length);
}

uint64_t Since(Clock::time_point start) { return std::chrono::duration_cast<std::chrono::nanoseconds>(Clock::now() - start).count(); }

}  // namespace

int main(int argc, char** argv) {
  if (argc != 6 && argc != 7) return 2;
  uint64_t count = std::strtoull(argv[2], nullptr, 10), turn = uint64_t{1} << 40;
  size_t value_size = std::strtoull(argv[3], nullptr, 10);
  std::unique_ptr<leveldb::Cache> cache(leveldb::NewLRUCache(std::strtoull(argv[5], nullptr, 10)));
  std::unique_ptr<const leveldb::FilterPolicy> filter(leveldb::NewBloomFilterPolicy(10));
  leveldb::Options options;
  options.create_if_missing = true;
  options.reuse_logs = true;
  options.compression = leveldb::kNoCompression;
  options.block_cache = cache.get();
  options.write_buffer_size = std::strtoull(argv[4], nullptr, 10);
  options.filter_policy = filter.get();
  leveldb::ReadOptions reading;
  reading.verify_checksums = argc == 7;
  std::string bytes, row, value;
  for (uint64_t i = 0; i < kBytes / 8; ++i) {
    uint64_t bits = Mix(i);
    bytes.append(reinterpret_cast<const char*>(&bits), 8);
  }
  leveldb::DB* opened = nullptr;
  Check(leveldb::DB::Open(options, argv[1], &opened));
  std::unique_ptr<leveldb::DB> db(opened);
  uint64_t ops;
  char key[17];
  while (std::cin >> row >> ops) {
    uint64_t before = 0, slowest = 0, found = 0;
    auto start = Clock::now();
    if (row == "get" || row == "missing") {
      size_t length = row == "get" ? 16 : 17;
      for (uint64_t i = 0; i < ops; ++i) found += db->Get(reading, KeyOf(Known(turn++, count), key, length), &value).ok();
    } else if (row == "seek") {
      std::unique_ptr<leveldb::Iterator> it(db->NewIterator(reading));
      for (uint64_t i = 0; i < ops; ++i) {
        it->Seek(KeyOf(Known(turn++, count), key, 16));
        found += it->Valid();
      }
    } else if (row == "random") {
      for (uint64_t i = 0; i < ops; ++i) {
        leveldb::Slice next(bytes.data() + i * value_size % (kBytes - value_size + 1), value_size);
        Check(db->Put(leveldb::WriteOptions(), KeyOf(Mix(i) % count, key, 16), next));
        uint64_t now = Since(start);
        slowest = std::max(slowest, now - before);
        before = now;
      }
    } else {
      return 2;
    }
    std::printf("%llu %llu %llu\n", static_cast<unsigned long long>(Since(start)), static_cast<unsigned long long>(slowest),
                static_cast<unsigned long long>(found));
    std::fflush(stdout);
  }
  return 0;
}
