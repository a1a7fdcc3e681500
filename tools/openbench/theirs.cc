// Makes a store whose log has all of its puts, and opens such a store, with C++ LevelDB.
//
//     theirs make FOLDER COUNT VALUE_SIZE     COUNT puts of keys at random, all in one log
//     theirs open FOLDER                      opens the store as an opening without options does, and closes it
//     theirs time PROGRAM ..                  runs a program, and prints its milliseconds and the most kilobytes that it had in memory
//
// A key is a number of sixteen digits. `make` ends without closing the store, as a kill would. `open` compresses no block, has filters of ten bits a key, and
// waits for the thread that compacts.
#include <sys/resource.h>
#include <sys/wait.h>
#include <unistd.h>

#include <chrono>
#include <cstdint>
#include <cstdio>
#include <cstdlib>
#include <memory>
#include <random>
#include <string>

#include "leveldb/db.h"
#include "leveldb/filter_policy.h"

namespace {

leveldb::DB* Open(const leveldb::Options& options, const char* folder) {
  leveldb::DB* db = nullptr;
  leveldb::Status status = leveldb::DB::Open(options, folder, &db);
  if (!status.ok()) {
    std::fprintf(stderr, "theirs: %s\n", status.ToString().c_str());
    std::exit(1);
  }
  return db;
}

void Make(leveldb::Options options, const char* folder, uint64_t count, size_t value_size) {
  options.create_if_missing = true;
  options.write_buffer_size = size_t{1} << 30;
  leveldb::DB* db = Open(options, folder);
  std::mt19937_64 random(301);
  std::string value(value_size, '\0');
  char key[32];
  for (uint64_t i = 0; i < count; ++i) {
    std::snprintf(key, sizeof key, "%016llu", static_cast<unsigned long long>(random() % count));
    for (char& byte : value) byte = static_cast<char>(random());
    if (!db->Put(leveldb::WriteOptions(), key, value).ok()) std::exit(1);
  }
  std::_Exit(0);
}

int Time(char** command) {
  const auto began = std::chrono::steady_clock::now();
  const pid_t child = fork();
  if (child == 0) {
    execv(command[0], command);
    std::_Exit(127);
  }
  int status = 1;
  rusage used = {};
  if (child < 0 || wait4(child, &status, 0, &used) != child) return 1;
  const std::chrono::duration<double, std::milli> took = std::chrono::steady_clock::now() - began;
  std::printf("%.1f %ld\n", took.count(), used.ru_maxrss);
  return status == 0 ? 0 : 1;
}

}  // namespace

int main(int argc, char** argv) {
  leveldb::Options options;
  options.compression = leveldb::kNoCompression;
  std::unique_ptr<const leveldb::FilterPolicy> filters(leveldb::NewBloomFilterPolicy(10));
  options.filter_policy = filters.get();
  const std::string what = argc > 1 ? argv[1] : "";
  if (what == "time" && argc > 2) return Time(argv + 2);
  if (what == "make" && argc == 5) Make(options, argv[2], std::strtoull(argv[3], nullptr, 10), std::strtoull(argv[4], nullptr, 10));
  if (what != "open" || argc != 3) return 2;
  delete Open(options, argv[2]);
  return 0;
}
