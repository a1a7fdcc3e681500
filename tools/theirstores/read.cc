// Reads a store with C++ LevelDB, as one that Pivroded made and compacted: its library and headers are libleveldb-dev on
// Debian.
//
//     c++ -std=c++17 read.cc -lleveldb -lpthread -o read
//     ./read FOLDER           prints a line `KEY VALUE` for each pair, in hex, `.` for no bytes; LevelDB then compacts it, and the lines
//                             must be the same once more. Status 1: it can't be opened, or a checksum or a line is wrong
#include <cstdio>
#include <cstdlib>
#include <memory>
#include <string>

#include "leveldb/db.h"
#include "leveldb/filter_policy.h"

namespace {

void Check(const leveldb::Status& status) {
  if (!status.ok()) {
    std::fprintf(stderr, "read: %s\n", status.ToString().c_str());
    std::exit(1);
  }
}

std::string HexOf(const leveldb::Slice& bytes) {
  if (bytes.empty()) return ".";
  std::string hex;
  for (size_t at = 0; at < bytes.size(); ++at) {
    char digits[3];
    std::snprintf(digits, sizeof digits, "%02x", static_cast<unsigned char>(bytes[at]));
    hex += digits;
  }
  return hex;
}

// All pairs as lines; each is found by a look-up, too, through filters and levels.
std::string LinesOf(leveldb::DB* db) {
  leveldb::ReadOptions read;
  read.verify_checksums = true;
  std::unique_ptr<leveldb::Iterator> it(db->NewIterator(read));
  std::string lines;
  for (it->SeekToFirst(); it->Valid(); it->Next()) {
    std::string value;
    Check(db->Get(read, it->key(), &value));
    if (value != it->value()) {
      std::fprintf(stderr, "read: a look-up finds another value than the walk\n");
      std::exit(1);
    }
    lines += HexOf(it->key()) + " " + HexOf(it->value()) + "\n";
  }
  Check(it->status());
  return lines;
}

}  // namespace

int main(int argc, char** argv) {
  if (argc != 2) {
    std::fprintf(stderr, "usage: read FOLDER\n");
    return 2;
  }
  leveldb::Options options;
  options.paranoid_checks = true;
  std::unique_ptr<const leveldb::FilterPolicy> policy(leveldb::NewBloomFilterPolicy(10));
  options.filter_policy = policy.get();
  leveldb::DB* opened = nullptr;
  Check(leveldb::DB::Open(options, argv[1], &opened));
  std::unique_ptr<leveldb::DB> db(opened);
  const std::string lines = LinesOf(db.get());
  db->CompactRange(nullptr, nullptr);
  if (LinesOf(db.get()) != lines) {
    std::fprintf(stderr, "read: a compaction changes what is found\n");
    return 1;
  }
  std::fputs(lines.c_str(), stdout);
  return 0;
}
