// Holds a store open with C++ LevelDB, to be read alone by another process meanwhile: its library and headers are libleveldb-dev on Debian.
//
//     c++ -std=c++17 hold.cc -lleveldb -lpthread -o hold
//     ./hold FOLDER           puts pairs until there are tables of several levels and a log that no sync covered, and deletes some; prints a
//                             line `KEY VALUE` for each pair that is left, in hex, and then a line `open`. It closes the store at the end
//                             of its input. Status 1: a call failed
#include <cstdio>
#include <cstdlib>
#include <memory>
#include <string>

#include "leveldb/db.h"
#include "leveldb/filter_policy.h"

namespace {

constexpr int kKeys = 2000;

void Check(const leveldb::Status& status) {
  if (!status.ok()) {
    std::fprintf(stderr, "hold: %s\n", status.ToString().c_str());
    std::exit(1);
  }
}

std::string HexOf(const leveldb::Slice& bytes) {
  std::string hex;
  for (size_t at = 0; at < bytes.size(); ++at) {
    char digits[3];
    std::snprintf(digits, sizeof digits, "%02x", static_cast<unsigned char>(bytes[at]));
    hex += digits;
  }
  return hex;
}

std::string KeyOf(int number) {
  char key[16];
  std::snprintf(key, sizeof key, "key%06d", number);
  return key;
}

// Overwrites and deletes, so that the tables have entries which nothing shows.
void Fill(leveldb::DB* db) {
  for (int round = 0; round < 5; ++round) {
    for (int number = round; number < kKeys; number += round + 1) {
      Check(db->Put(leveldb::WriteOptions(), KeyOf(number), std::string(100, 'a' + round)));
    }
    if (round == 2) db->CompactRange(nullptr, nullptr);
  }
  for (int number = 0; number < kKeys; number += 7) {
    Check(db->Delete(leveldb::WriteOptions(), KeyOf(number)));
  }
}

void PrintPairs(leveldb::DB* db) {
  std::unique_ptr<leveldb::Iterator> it(db->NewIterator(leveldb::ReadOptions()));
  for (it->SeekToFirst(); it->Valid(); it->Next()) {
    std::printf("%s %s\n", HexOf(it->key()).c_str(), HexOf(it->value()).c_str());
  }
  Check(it->status());
}

}  // namespace

int main(int count, char** words) {
  if (count != 2) {
    std::fprintf(stderr, "usage: hold FOLDER\n");
    return 2;
  }
  std::unique_ptr<const leveldb::FilterPolicy> policy(leveldb::NewBloomFilterPolicy(10));
  leveldb::Options options;
  options.create_if_missing = true;
  options.compression = leveldb::kNoCompression;
  options.write_buffer_size = 64 << 10;
  options.filter_policy = policy.get();
  leveldb::DB* opened = nullptr;
  Check(leveldb::DB::Open(options, words[1], &opened));
  std::unique_ptr<leveldb::DB> db(opened);
  Fill(db.get());
  PrintPairs(db.get());
  std::printf("open\n");
  std::fflush(stdout);
  while (std::getchar() != EOF) {
  }
  return 0;
}
