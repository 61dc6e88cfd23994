// Four threads put, get, iterate and delete in one database of leveldb, whose write buffer is small, so that it compacts meanwhile.
#include <leveldb/cache.h>
#include <leveldb/db.h>

#include <cstdio>
#include <memory>
#include <string>
#include <thread>
#include <vector>

constexpr int threads = 4, turns = 400, keys = 200;

static std::string key(int number) {
    return "key" + std::to_string(number % keys);
}

static void work(leveldb::DB &database, int thread) {
    for (int turn = 0; turn < turns; turn++) {
        std::string found, name = key(turn * 7 + thread);
        database.Put({}, name, std::string(300, static_cast<char>('a' + thread)));
        database.Get({}, key(turn), &found);
        if (turn % 50 == 0) {
            std::unique_ptr<leveldb::Iterator> place(database.NewIterator({}));
            place->SeekToFirst();
            for (int seen = 0; seen < 20 && place->Valid(); seen++)
                place->Next();
        }
        if (turn % 9 == 0)
            database.Delete({}, name);
    }
}

int main(int count, char **words) {
    if (count < 2)
        return 2;
    std::unique_ptr<leveldb::Cache> cache(leveldb::NewLRUCache(100000));
    leveldb::Options options;
    options.create_if_missing = true;
    options.write_buffer_size = 65536;
    options.block_cache = cache.get();
    leveldb::DestroyDB(words[1], options);
    leveldb::DB *opened;
    leveldb::Status status = leveldb::DB::Open(options, words[1], &opened);
    if (!status.ok()) {
        std::fprintf(stderr, "%s\n", status.ToString().c_str());
        return 1;
    }
    std::unique_ptr<leveldb::DB> database(opened);
    std::vector<std::thread> all;
    for (int thread = 0; thread < threads; thread++)
        all.emplace_back(work, std::ref(*database), thread);
    for (std::thread &one : all)
        one.join();
    std::string told;
    database->GetProperty("leveldb.stats", &told);
    std::printf("%zu bytes of statistics\n", told.size());
}
