// Prints what files of a store hold as C++ LevelDB's leveldbutil does, to compare ./leveldbutil with it: libleveldb-dev on Debian.
//
//     c++ -std=c++17 dump.cc -lleveldb -lsnappy -lpthread -o dump
//     ./dump FILE..
#include <cstdio>

#include "leveldb/dumpfile.h"
#include "leveldb/env.h"

namespace {

class Output : public leveldb::WritableFile {
 public:
  leveldb::Status Append(const leveldb::Slice& data) override {
    std::fwrite(data.data(), 1, data.size(), stdout);
    return leveldb::Status::OK();
  }
  leveldb::Status Close() override { return leveldb::Status::OK(); }
  leveldb::Status Flush() override { return leveldb::Status::OK(); }
  leveldb::Status Sync() override { return leveldb::Status::OK(); }
};

}  // namespace

int main(int count, char** words) {
  Output output;
  int status = 0;
  for (int at = 1; at < count; ++at) {
    const leveldb::Status done = leveldb::DumpFile(leveldb::Env::Default(), words[at], &output);
    if (done.ok()) continue;
    std::fprintf(stderr, "dump: %s\n", done.ToString().c_str());
    status = 1;
  }
  return status;
}
