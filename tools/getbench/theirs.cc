// Times look-ups, walks, seeks and openings in C++ LevelDB, as db_bench's readrandom, readmissing, readseq, readreverse, seekrandom, open and
// tableopen do here. For the first five all entries are in tables, and as much as is timed goes before it.
//
//     theirs COUNT CACHE_SIZE ROUNDS [FOLDER STORE]     prints, for each row, its name and the least nanoseconds an operation of the rounds, without
//                                                       and with checksums verified; in memory, or in a new store in the folder, with openings of
//                                                       the store that is in the other. The table of tableopen is in memory
#include <algorithm>
#include <chrono>
#include <cstdint>
#include <cstdio>
#include <cstdlib>
#include <memory>
#include <random>
#include <string>

#include "leveldb/cache.h"
#include "leveldb/db.h"
#include "leveldb/env.h"
#include "leveldb/filter_policy.h"
#include "leveldb/helpers/memenv.h"
#include "leveldb/table.h"
#include "leveldb/table_builder.h"

namespace {

using Clock = std::chrono::steady_clock;

// The folder of the store.
std::string folder = "/bench";

// A number of sixteen digits.
std::string KeyOf(uint64_t number) {
  char text[17];
  std::snprintf(text, sizeof text, "%016llu", static_cast<unsigned long long>(number));
  return text;
}

void Check(const leveldb::Status& status) {
  if (!status.ok()) {
    std::fprintf(stderr, "theirs: %s\n", status.ToString().c_str());
    std::exit(1);
  }
}

std::unique_ptr<leveldb::DB> Open(const leveldb::Options& options) {
  leveldb::DB* db = nullptr;
  Check(leveldb::DB::Open(options, folder, &db));
  return std::unique_ptr<leveldb::DB>(db);
}

void Fill(const leveldb::Options& options, uint64_t count) {
  auto db = Open(options);
  std::mt19937_64 random(301);
  std::string value(100, 'v');
  for (uint64_t number = 0; number < count; ++number) {
    for (auto& byte : value) byte = static_cast<char>(' ' + random() % 95);
    Check(db->Put(leveldb::WriteOptions(), KeyOf(number), value));
  }
}

// Nanoseconds a look-up of keys at random, or of keys between them; the first half isn't timed.
double Get(const leveldb::Options& options, const leveldb::ReadOptions& reading, uint64_t count, bool missing) {
  auto db = Open(options);
  std::mt19937_64 random(17);
  std::string value;
  uint64_t found = 0;
  auto start = Clock::now();
  for (uint64_t turn = 0; turn < 2 * count; ++turn) {
    if (turn == count) {
      found = 0;
      start = Clock::now();
    }
    std::string key = KeyOf(random() % count);
    if (missing) key += '.';
    if (db->Get(reading, key, &value).ok()) ++found;
  }
  std::chrono::duration<double, std::nano> took = Clock::now() - start;
  if (found != (missing ? 0 : count)) {
    std::fprintf(stderr, "theirs: %llu found\n", static_cast<unsigned long long>(found));
    std::exit(1);
  }
  return took.count() / static_cast<double>(count);
}

// Nanoseconds a pair of a walk over all of them, forward or back; a walk before it isn't timed.
double Walk(const leveldb::Options& options, const leveldb::ReadOptions& reading, uint64_t count, bool back) {
  auto db = Open(options);
  std::unique_ptr<leveldb::Iterator> it(db->NewIterator(reading));
  uint64_t bytes = 0;
  auto start = Clock::now();
  for (int turn = 0; turn < 2; ++turn) {
    start = Clock::now();
    bytes = 0;
    if (back) {
      for (it->SeekToLast(); it->Valid(); it->Prev()) bytes += it->key().size() + it->value().size();
    } else {
      for (it->SeekToFirst(); it->Valid(); it->Next()) bytes += it->key().size() + it->value().size();
    }
  }
  std::chrono::duration<double, std::nano> took = Clock::now() - start;
  if (bytes != 116 * count) {
    std::fprintf(stderr, "theirs: %llu bytes\n", static_cast<unsigned long long>(bytes));
    std::exit(1);
  }
  return took.count() / static_cast<double>(count);
}

// Nanoseconds a seek of keys at random; the first half isn't timed.
double Seek(const leveldb::Options& options, const leveldb::ReadOptions& reading, uint64_t count) {
  auto db = Open(options);
  std::unique_ptr<leveldb::Iterator> it(db->NewIterator(reading));
  std::mt19937_64 random(17);
  uint64_t bytes = 0;
  auto start = Clock::now();
  for (uint64_t turn = 0; turn < 2 * count; ++turn) {
    if (turn == count) {
      bytes = 0;
      start = Clock::now();
    }
    it->Seek(KeyOf(random() % count));
    if (it->Valid()) bytes += it->value().size();
  }
  std::chrono::duration<double, std::nano> took = Clock::now() - start;
  if (bytes != 100 * count) {
    std::fprintf(stderr, "theirs: %llu bytes sought\n", static_cast<unsigned long long>(bytes));
    std::exit(1);
  }
  return took.count() / static_cast<double>(count);
}

// Nanoseconds an opening of a store that goes on with its log, and a close. Paranoid checks are on where it verifies.
double OpenAgain(leveldb::Options options, const leveldb::ReadOptions& reading, uint64_t count) {
  options.create_if_missing = false;
  options.reuse_logs = true;
  options.paranoid_checks = reading.verify_checksums;
  uint64_t times = (count + 9999) / 10000;
  auto start = Clock::now();
  for (uint64_t turn = 0; turn < times; ++turn) Open(options);
  std::chrono::duration<double, std::nano> took = Clock::now() - start;
  return took.count() / static_cast<double>(times);
}

// Puts a table of the pairs into a file, and returns its length.
uint64_t Build(const leveldb::Options& options, uint64_t count) {
  leveldb::WritableFile* file = nullptr;
  Check(options.env->NewWritableFile("/table", &file));
  std::unique_ptr<leveldb::WritableFile> owned(file);
  leveldb::TableBuilder builder(options, file);
  std::string value(100, 'v');
  for (uint64_t number = 0; number < count; ++number) builder.Add(KeyOf(number), value);
  Check(builder.Finish());
  Check(file->Close());
  return builder.FileSize();
}

// Nanoseconds an opening of that table.
double OpenTable(leveldb::Options options, const leveldb::ReadOptions& reading, uint64_t count, uint64_t size) {
  options.paranoid_checks = reading.verify_checksums;
  uint64_t times = (count + 999) / 1000;
  auto start = Clock::now();
  for (uint64_t turn = 0; turn < times; ++turn) {
    leveldb::RandomAccessFile* file = nullptr;
    Check(options.env->NewRandomAccessFile("/table", &file));
    std::unique_ptr<leveldb::RandomAccessFile> owned(file);
    leveldb::Table* table = nullptr;
    Check(leveldb::Table::Open(options, file, size, &table));
    delete table;
  }
  std::chrono::duration<double, std::nano> took = Clock::now() - start;
  return took.count() / static_cast<double>(times);
}

// The least of as many rounds, without and with checksums verified, in turn.
template <typename Row>
void Print(const char* name, int rounds, Row row) {
  leveldb::ReadOptions plain, verifying;
  verifying.verify_checksums = true;
  double least = row(plain), least_verifying = row(verifying);
  for (int round = 1; round < rounds; ++round) {
    least = std::min(least, row(plain));
    least_verifying = std::min(least_verifying, row(verifying));
  }
  std::printf("%s %.1f %.1f\n", name, least, least_verifying);
}

}  // namespace

int main(int argc, char** argv) {
  if (argc != 4 && argc != 6) return 2;
  uint64_t count = std::strtoull(argv[1], nullptr, 10);
  uint64_t cache_size = std::strtoull(argv[2], nullptr, 10);
  int rounds = std::atoi(argv[3]);
  std::unique_ptr<leveldb::Env> memory(leveldb::NewMemEnv(leveldb::Env::Default()));
  std::unique_ptr<leveldb::Cache> cache(leveldb::NewLRUCache(cache_size));
  std::unique_ptr<const leveldb::FilterPolicy> filter(leveldb::NewBloomFilterPolicy(10));
  leveldb::Options options;
  options.env = argc == 6 ? leveldb::Env::Default() : memory.get();
  options.create_if_missing = true;
  options.compression = leveldb::kNoCompression;
  options.block_cache = cache.get();
  options.filter_policy = filter.get();
  if (argc == 6) folder = std::string(argv[4]) + "/theirs";
  Fill(options, count);
  Print("readrandom", rounds, [&](auto& reading) { return Get(options, reading, count, false); });
  Print("readmissing", rounds, [&](auto& reading) { return Get(options, reading, count, true); });
  Print("readseq", rounds, [&](auto& reading) { return Walk(options, reading, count, false); });
  Print("readreverse", rounds, [&](auto& reading) { return Walk(options, reading, count, true); });
  Print("seekrandom", rounds, [&](auto& reading) { return Seek(options, reading, count); });
  if (argc == 6) {
    folder = argv[5];
    Print("open", rounds, [&](auto& reading) { return OpenAgain(options, reading, count); });
  }
  options.env = memory.get();
  uint64_t size = Build(options, count);
  Print("tableopen", rounds, [&](auto& reading) { return OpenTable(options, reading, count, size); });
  return 0;
}
