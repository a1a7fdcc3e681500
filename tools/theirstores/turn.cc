// Takes a turn on a store with C++ LevelDB by its default options, which compress by Snappy: its library and headers are libleveldb-dev and
// libsnappy-dev on Debian.
//
//     c++ -std=c++17 turn.cc -lleveldb -lsnappy -lpthread -o turn
//     ./turn FOLDER           runs the commands of its input, a line each: `put KEY VALUE`, `del KEY`, `compact` (the whole store), `flush` (closes
//                             the store and opens it again, which makes a table of its log). Keys and values are in hex, `.` for no bytes.
//                             Then it prints a line `KEY VALUE` for each pair, found by a walk and by a look-up. Status 1: a call failed, or a
//                             checksum is wrong
#include <cstdio>
#include <cstdlib>
#include <iostream>
#include <memory>
#include <string>

#include "leveldb/db.h"

namespace {

void Check(const leveldb::Status& status) {
  if (!status.ok()) {
    std::fprintf(stderr, "turn: %s\n", status.ToString().c_str());
    std::exit(1);
  }
}

std::unique_ptr<leveldb::DB> Open(const char* folder) {
  leveldb::Options options;
  options.create_if_missing = true;
  options.paranoid_checks = true;
  leveldb::DB* db = nullptr;
  Check(leveldb::DB::Open(options, folder, &db));
  return std::unique_ptr<leveldb::DB>(db);
}

int DigitOf(char letter) { return letter <= '9' ? letter - '0' : letter - 'a' + 10; }

std::string BytesOf(const std::string& hex) {
  std::string bytes;
  for (size_t at = 0; hex != "." && at + 1 < hex.size(); at += 2) bytes += char(DigitOf(hex[at]) * 16 + DigitOf(hex[at + 1]));
  return bytes;
}

std::string HexOf(const leveldb::Slice& bytes) {
  static const char kDigits[] = "0123456789abcdef";
  std::string hex;
  for (size_t at = 0; at < bytes.size(); ++at) {
    const auto byte = static_cast<unsigned char>(bytes[at]);
    hex += kDigits[byte / 16];
    hex += kDigits[byte % 16];
  }
  return hex.empty() ? "." : hex;
}

void PrintPairs(leveldb::DB* db) {
  leveldb::ReadOptions read;
  read.verify_checksums = true;
  std::unique_ptr<leveldb::Iterator> it(db->NewIterator(read));
  for (it->SeekToFirst(); it->Valid(); it->Next()) {
    std::string value;
    Check(db->Get(read, it->key(), &value));
    if (value != it->value()) {
      std::fprintf(stderr, "turn: a look-up finds another value than the walk\n");
      std::exit(1);
    }
    std::cout << HexOf(it->key()) << ' ' << HexOf(it->value()) << '\n';
  }
  Check(it->status());
}

}  // namespace

int main(int argc, char** argv) {
  if (argc != 2) {
    std::fprintf(stderr, "usage: turn FOLDER\n");
    return 2;
  }
  std::ios::sync_with_stdio(false);
  auto db = Open(argv[1]);
  const leveldb::WriteOptions write;
  for (std::string call, key, value; std::cin >> call;) {
    if (call == "put") {
      std::cin >> key >> value;
      Check(db->Put(write, BytesOf(key), BytesOf(value)));
    } else if (call == "del") {
      std::cin >> key;
      Check(db->Delete(write, BytesOf(key)));
    } else if (call == "compact") {
      db->CompactRange(nullptr, nullptr);
    } else if (call == "flush") {
      db.reset();
      db = Open(argv[1]);
    } else {
      return 2;
    }
  }
  PrintPairs(db.get());
  return 0;
}
