// Times a compaction of a whole store in C++ LevelDB, as db_bench's row compact does here: the keys came at random, a quarter of them in each of four
// openings, so that the tables of all but the last quarter overlap in level 0, and that is in memory.
//
//     theirs COUNT ROUNDS VERIFY [FOLDER]     in memory or in FOLDER/theirs; VERIFY is 1 if checksums are to be verified, as ours are, or 0.
//
// It prints the least nanoseconds of the rounds: `compact` is CompactRange, which goes down to level 1, and `again` merges the tables of level 1 into level 2,
// as ours does.
#include <algorithm>
#include <chrono>
#include <cstdint>
#include <cstdio>
#include <cstdlib>
#include <memory>
#include <random>
#include <string>

#include "leveldb/db.h"
#include "leveldb/env.h"
#include "leveldb/filter_policy.h"
#include "leveldb/helpers/memenv.h"

namespace leveldb {

// The library has this class; its header is none of those that are installed.
class DBImpl {
 public:
  void TEST_CompactRange(int level, const Slice* begin, const Slice* end);
};

}  // namespace leveldb

namespace {

using Clock = std::chrono::steady_clock;

// A number of sixteen digits.
std::string KeyOf(uint64_t number) {
  char text[17];
  std::snprintf(text, sizeof text, "%016llu", static_cast<unsigned long long>(number));
  return text;
}

void Check(const leveldb::Status& status) {
  if (!status.ok()) {
    std::fprintf(stderr, "theirs: %s\n", status.ToString().c_str());
    std::exit(1);
  }
}

std::unique_ptr<leveldb::DB> Open(const leveldb::Options& options, const std::string& name) {
  leveldb::DB* db = nullptr;
  Check(leveldb::DB::Open(options, name, &db));
  return std::unique_ptr<leveldb::DB>(db);
}

// How many files a level has.
int FilesAt(leveldb::DB* db, int level) {
  std::string text;
  if (!db->GetProperty("leveldb.num-files-at-level" + std::to_string(level), &text)) std::exit(1);
  return std::atoi(text.c_str());
}

void Expect(bool holds, const char* what) {
  if (!holds) {
    std::fprintf(stderr, "theirs: %s\n", what);
    std::exit(1);
  }
}

double Since(Clock::time_point start) {
  std::chrono::duration<double, std::nano> took = Clock::now() - start;
  return took.count();
}

// One round: a store that is made, compacted and deleted.
void Round(leveldb::Options options, uint64_t count, const std::string& name, double* compact, double* again) {
  Check(leveldb::DestroyDB(name, options));
  std::mt19937_64 random(301);
  std::string bytes(1 << 20, ' ');
  for (auto& byte : bytes) byte = static_cast<char>(random());
  for (uint64_t part = 0; part < 4; ++part) {
    auto db = Open(options, name);
    for (uint64_t turn = 0; turn < (count + part) / 4; ++turn) {
      uint64_t number = random() % count;
      leveldb::Slice value(bytes.data() + number * 100 % (bytes.size() - 99), 100);
      Check(db->Put(leveldb::WriteOptions(), KeyOf(number), value));
    }
  }
  options.reuse_logs = true;
  auto db = Open(options, name);
  Expect(FilesAt(db.get(), 0) == 3, "level 0 hasn't three tables");
  auto start = Clock::now();
  db->CompactRange(nullptr, nullptr);
  *compact = std::min(*compact, Since(start));
  Expect(FilesAt(db.get(), 0) == 0 && FilesAt(db.get(), 2) == 0 && FilesAt(db.get(), 1) > 0, "not all is in level 1");
  start = Clock::now();
  reinterpret_cast<leveldb::DBImpl*>(db.get())->TEST_CompactRange(1, nullptr, nullptr);
  *again = std::min(*again, Since(start));
  Expect(FilesAt(db.get(), 1) == 0 && FilesAt(db.get(), 2) > 0, "not all is in level 2");
  db.reset();
  Check(leveldb::DestroyDB(name, options));
}

}  // namespace

int main(int argc, char** argv) {
  if (argc != 4 && argc != 5) return 2;
  uint64_t count = std::strtoull(argv[1], nullptr, 10);
  int rounds = std::atoi(argv[2]);
  std::unique_ptr<leveldb::Env> memory(leveldb::NewMemEnv(leveldb::Env::Default()));
  std::unique_ptr<const leveldb::FilterPolicy> filter(leveldb::NewBloomFilterPolicy(10));
  leveldb::Options options;
  options.env = argc == 5 ? leveldb::Env::Default() : memory.get();
  options.create_if_missing = true;
  options.compression = leveldb::kNoCompression;
  options.paranoid_checks = std::atoi(argv[3]) != 0;
  options.filter_policy = filter.get();
  std::string name = argc == 5 ? std::string(argv[4]) + "/theirs" : "/theirs";
  double compact = 1e18, again = 1e18;
  for (int round = 0; round < rounds; ++round) Round(options, count, name, &compact, &again);
  std::printf("compact %.0f\nagain %.0f\n", compact, again);
  return 0;
}
