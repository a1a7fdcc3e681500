// Times puts in C++ LevelDB, and look-ups after them, as db_bench's fillseq, fillrandom, overwrite, readupdated, stalls and churn do here.
//
//     theirs ROWS COUNT VALUE_SIZE CACHE_SIZE WRITE_BUFFER_SIZE [FOLDER]     in memory or in FOLDER/theirs; ROWS is fills or churn
//
// `fills` prints, for each row, its name and the least of three rounds: nanoseconds an operation; and for a row of puts those of all processors that worked for
// it, until the thread that compacts had nothing more to do. `stalls` is the slowest put's nanoseconds. `churn` prints the bytes of all files: the most of ten
// openings, each when that thread was done.
#include <algorithm>
#include <chrono>
#include <cstdint>
#include <cstdio>
#include <cstdlib>
#include <ctime>
#include <memory>
#include <random>
#include <string>
#include <thread>
#include <vector>

#include "leveldb/cache.h"
#include "leveldb/db.h"
#include "leveldb/env.h"
#include "leveldb/filter_policy.h"
#include "leveldb/helpers/memenv.h"

namespace {

using Clock = std::chrono::steady_clock;

constexpr int kRounds = 3;
constexpr int kOpenings = 10;

// What all rows share.
struct Bench {
  leveldb::Options options;
  std::string name;
  uint64_t count;
  size_t value_size;
  std::string bytes;
};

// A number of sixteen digits.
leveldb::Slice KeyOf(uint64_t number, char (&key)[16]) {
  for (int i = 15; i >= 0; --i, number /= 10) key[i] = static_cast<char>('0' + number % 10);
  return leveldb::Slice(key, sizeof key);
}

leveldb::Slice ValueOf(const Bench& bench, uint64_t number) {
  return leveldb::Slice(bench.bytes.data() + number * bench.value_size % (bench.bytes.size() - bench.value_size + 1), bench.value_size);
}

void Check(const leveldb::Status& status) {
  if (!status.ok()) {
    std::fprintf(stderr, "theirs: %s\n", status.ToString().c_str());
    std::exit(1);
  }
}

std::unique_ptr<leveldb::DB> Open(const Bench& bench) {
  leveldb::DB* db = nullptr;
  Check(leveldb::DB::Open(bench.options, bench.name, &db));
  return std::unique_ptr<leveldb::DB>(db);
}

double Since(Clock::time_point start) {
  std::chrono::duration<double, std::nano> took = Clock::now() - start;
  return took.count();
}

// Nanoseconds that processors worked for this program.
double Worked() {
  timespec time;
  clock_gettime(CLOCK_PROCESS_CPUTIME_ID, &time);
  return static_cast<double>(time.tv_sec) * 1e9 + static_cast<double>(time.tv_nsec);
}

// Waits until the thread that compacts has nothing to do: the tables are the same for a fifth of a second.
void Rest(leveldb::DB* db) {
  std::string before, now;
  do {
    before = now;
    std::this_thread::sleep_for(std::chrono::milliseconds(200));
    if (!db->GetProperty("leveldb.sstables", &now)) std::exit(1);
  } while (now != before);
}

// What puts took, in nanoseconds an operation.
struct Puts {
  double took = 1e18;
  double worked = 1e18;

  Puts OrFaster(Puts other) const { return {std::min(took, other.took), std::min(worked, other.worked)}; }
};

// Puts keys in order.
Puts FillInOrder(const Bench& bench, uint64_t count) {
  auto db = Open(bench);
  char key[16];
  double worked = Worked();
  auto start = Clock::now();
  for (uint64_t number = 0; number < count; ++number) Check(db->Put(leveldb::WriteOptions(), KeyOf(number, key), ValueOf(bench, number)));
  double took = Since(start);
  Rest(db.get());
  return {took / static_cast<double>(count), (Worked() - worked) / static_cast<double>(count)};
}

Puts PutAtRandom(const Bench& bench) {
  auto db = Open(bench);
  std::mt19937_64 random(301);
  char key[16];
  double worked = Worked();
  auto start = Clock::now();
  for (uint64_t turn = 0; turn < bench.count; ++turn) {
    uint64_t number = random() % bench.count;
    Check(db->Put(leveldb::WriteOptions(), KeyOf(number, key), ValueOf(bench, number)));
  }
  double took = Since(start);
  Rest(db.get());
  double count = static_cast<double>(bench.count);
  return {took / count, (Worked() - worked) / count};
}

// Nanoseconds of the slowest put.
double SlowestPut(const Bench& bench) {
  auto db = Open(bench);
  std::mt19937_64 random(301);
  char key[16];
  double before = 0, slowest = 0;
  auto start = Clock::now();
  for (uint64_t turn = 0; turn < bench.count; ++turn) {
    uint64_t number = random() % bench.count;
    Check(db->Put(leveldb::WriteOptions(), KeyOf(number, key), ValueOf(bench, number)));
    double now = Since(start);
    slowest = std::max(slowest, now - before);
    before = now;
  }
  return slowest;
}

// Nanoseconds a look-up of keys at random, each of which is there; the first half isn't timed.
double Get(const Bench& bench) {
  auto db = Open(bench);
  std::mt19937_64 random(17);
  std::string value;
  char key[16];
  auto start = Clock::now();
  for (uint64_t turn = 0; turn < 2 * bench.count; ++turn) {
    if (turn == bench.count) start = Clock::now();
    Check(db->Get(leveldb::ReadOptions(), KeyOf(random() % bench.count, key), &value));
  }
  return Since(start) / static_cast<double>(bench.count);
}

// How many bytes the files of the store have.
uint64_t SizeOf(const Bench& bench) {
  std::vector<std::string> names;
  Check(bench.options.env->GetChildren(bench.name, &names));
  uint64_t bytes = 0;
  for (const auto& name : names) {
    uint64_t size = 0;
    if (name[0] == '.') continue;
    Check(bench.options.env->GetFileSize(bench.name + "/" + name, &size));
    bytes += size;
  }
  return bytes;
}

// The most bytes that the files have, as a tenth of the keys is put again and again.
uint64_t Churn(const Bench& bench) {
  uint64_t keys = (bench.count + 9) / 10, most = 0;
  FillInOrder(bench, keys);
  std::mt19937_64 random(301);
  char key[16];
  for (int opening = 0; opening < kOpenings; ++opening) {
    auto db = Open(bench);
    for (uint64_t turn = 0; turn < bench.count; ++turn) {
      uint64_t number = random() % keys;
      Check(db->Put(leveldb::WriteOptions(), KeyOf(number, key), ValueOf(bench, number)));
    }
    Rest(db.get());
    most = std::max(most, SizeOf(bench));
  }
  return most;
}

void Empty(const Bench& bench) { Check(leveldb::DestroyDB(bench.name, bench.options)); }

void Fills(const Bench& bench) {
  Puts rising, fill, overwrite;
  double read = 1e18, slowest = 1e18;
  for (int round = 0; round < kRounds; ++round) {
    Empty(bench);
    fill = fill.OrFaster(PutAtRandom(bench));
    Empty(bench);
    rising = rising.OrFaster(FillInOrder(bench, bench.count));
    overwrite = overwrite.OrFaster(PutAtRandom(bench));
    read = std::min(read, Get(bench));
    Empty(bench);
    slowest = std::min(slowest, SlowestPut(bench));
  }
  std::printf("fillseq %.0f %.0f\n", rising.took, rising.worked);
  std::printf("fillrandom %.0f %.0f\n", fill.took, fill.worked);
  std::printf("overwrite %.0f %.0f\n", overwrite.took, overwrite.worked);
  std::printf("readupdated %.0f\nstalls %.0f\n", read, slowest);
}

}  // namespace

int main(int argc, char** argv) {
  if (argc != 6 && argc != 7) return 2;
  std::string rows = argv[1];
  std::unique_ptr<leveldb::Env> memory(leveldb::NewMemEnv(leveldb::Env::Default()));
  std::unique_ptr<leveldb::Cache> cache(leveldb::NewLRUCache(std::strtoull(argv[4], nullptr, 10)));
  std::unique_ptr<const leveldb::FilterPolicy> filter(leveldb::NewBloomFilterPolicy(10));
  Bench bench;
  bench.options.env = argc == 7 ? leveldb::Env::Default() : memory.get();
  bench.options.create_if_missing = true;
  bench.options.reuse_logs = true;
  bench.options.compression = leveldb::kNoCompression;
  bench.options.block_cache = cache.get();
  bench.options.write_buffer_size = std::strtoull(argv[5], nullptr, 10);
  bench.options.filter_policy = filter.get();
  bench.name = argc == 7 ? std::string(argv[6]) + "/theirs" : "/theirs";
  bench.count = std::strtoull(argv[2], nullptr, 10);
  bench.value_size = std::strtoull(argv[3], nullptr, 10);
  std::mt19937_64 random(301);
  bench.bytes.resize(1 << 20);
  for (auto& byte : bench.bytes) byte = static_cast<char>(random());
  if (rows == "churn") {
    Empty(bench);
    std::printf("churn %llu\n", static_cast<unsigned long long>(Churn(bench)));
  } else {
    Fills(bench);
  }
  Empty(bench);
  return 0;
}
