// Makes the small stores that crates' tests read, with C++ LevelDB: its library and headers are libleveldb-dev and libsnappy-dev on Debian.
//
//     c++ -std=c++17 make.cc -lleveldb -lsnappy -lpthread -o make
//     ./make plain FOLDER     a store without compression: a table in level 2, one above it, and a log
//     ./make snappy FOLDER    a store of one table, whose block is compressed
//     ./make dumped FOLDER    a store whose log, manifest and table have each kind of line of a dump
//     ./make large FOLDER     a store of several levels and of logs, after 80,000 changes at random in four openings
#include <cstdio>
#include <cstdlib>
#include <memory>
#include <random>
#include <string>

#include "leveldb/db.h"
#include "leveldb/filter_policy.h"
#include "leveldb/write_batch.h"

namespace {

void Check(const leveldb::Status& status) {
  if (!status.ok()) {
    std::fprintf(stderr, "make: %s\n", status.ToString().c_str());
    std::exit(1);
  }
}

std::unique_ptr<leveldb::DB> Open(const char* folder, const leveldb::Options& options) {
  leveldb::DB* db = nullptr;
  Check(leveldb::DB::Open(options, folder, &db));
  return std::unique_ptr<leveldb::DB>(db);
}

std::string KeyOf(int number) {
  char key[8];
  std::snprintf(key, sizeof key, "key%02d", number);
  return key;
}

// Each opening makes a table of what the last one left in its log.
void MakePlain(const char* folder, const leveldb::Options& options) {
  leveldb::WriteOptions write;
  {
    auto db = Open(folder, options);
    for (int number = 0; number < 20; ++number) Check(db->Put(write, KeyOf(number), "old " + KeyOf(number)));
    db->CompactRange(nullptr, nullptr);
    Check(db->Delete(write, "key03"));
    Check(db->Put(write, "key05", "new key05"));
    Check(db->Put(write, "", ""));
  }
  auto db = Open(folder, options);
  leveldb::WriteBatch batch;
  batch.Put("key07", "newest key07");
  batch.Delete("key05");
  batch.Put("zz", std::string(3, '\0'));
  write.sync = true;
  Check(db->Write(write, &batch));
  write.sync = false;
  Check(db->Put(write, "key20", "in the log"));
}

void MakeSnappy(const char* folder, const leveldb::Options& options) {
  {
    auto db = Open(folder, options);
    Check(db->Put(leveldb::WriteOptions(), "a", std::string(100, 'a')));
    Check(db->Put(leveldb::WriteOptions(), "b", std::string(100, 'b')));
  }
  Open(folder, options);
}

// It is never opened again, so the manifest keeps the edits of its compactions.
void MakeDumped(const char* folder, const leveldb::Options& options) {
  leveldb::WriteOptions write;
  auto db = Open(folder, options);
  for (int number = 0; number < 5; ++number) Check(db->Put(write, KeyOf(number), std::string(number, 'v')));
  db->CompactRange(nullptr, nullptr);
  Check(db->Put(write, "key02", "it's \\ \"new\""));
  Check(db->Delete(write, "key03"));
  Check(db->Put(write, std::string("\0\x7f\xff~ ", 5), "\n"));
  db->CompactRange(nullptr, nullptr);
  leveldb::WriteBatch batch;
  batch.Put("", "");
  batch.Delete("key01");
  batch.Put("it's", "\xc3\xa4\t");
  Check(db->Write(write, &batch));
  leveldb::WriteBatch none;
  Check(db->Write(write, &none));
}

void MakeLarge(const char* folder, leveldb::Options options) {
  options.write_buffer_size = 64 << 10;
  options.max_file_size = 1 << 20;
  leveldb::WriteOptions write;
  std::mt19937 random(7);
  for (int opening = 0; opening < 4; ++opening) {
    auto db = Open(folder, options);
    for (int change = 0; change < 20000; ++change) {
      const std::string key = "key" + std::to_string(random() % 30000);
      if (random() % 5 == 0) Check(db->Delete(write, key));
      else Check(db->Put(write, key, std::string(random() % 120, 'a' + char(random() % 26))));
    }
  }
}

}  // namespace

int main(int argc, char** argv) {
  std::string kind = argc == 3 ? argv[1] : "";
  std::unique_ptr<const leveldb::FilterPolicy> policy(leveldb::NewBloomFilterPolicy(10));
  leveldb::Options options;
  options.create_if_missing = true;
  options.filter_policy = policy.get();
  options.compression = kind == "snappy" ? leveldb::kSnappyCompression : leveldb::kNoCompression;
  if (kind == "plain") MakePlain(argv[2], options);
  else if (kind == "snappy") MakeSnappy(argv[2], options);
  else if (kind == "dumped") MakeDumped(argv[2], options);
  else if (kind == "large") MakeLarge(argv[2], options);
  else return 2;
  return 0;
}
