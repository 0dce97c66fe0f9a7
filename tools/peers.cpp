// Times durable writes of blocks, and reads of them, by SQLite, LMDB and RocksDB, beside one
// SHA-256 over a page. tools/peers.py compiles this program, runs it and makes a table.
//
// usage: peers FOLDER
//
// Each line that it prints has a name, nanoseconds for a block, and nanoseconds for the plain
// SHA-256 as timed right before and after. Nothing is left in the folder unless the program fails.

#include <lmdb.h>
#include <openssl/crypto.h>
#include <openssl/sha.h>
#include <rocksdb/db.h>
#include <rocksdb/table.h>
#include <rocksdb/version.h>
#include <sqlite3.h>

#include <chrono>
#include <cstdint>
#include <cstdio>
#include <cstdlib>
#include <cstring>
#include <filesystem>
#include <memory>
#include <string>
#include <vector>

namespace {

constexpr uint32_t COUNT = 8192;
constexpr uint32_t GROUP = 32;
constexpr size_t BLOCK = 4096;
// What the check of a page of the device covers: a block and 64 bytes beside it.
constexpr size_t PAGE = 4160;
constexpr uint32_t HASHES = 1024;

[[noreturn]] void fail(const std::string &what) {
    std::fprintf(stderr, "peers: %s\n", what.c_str());
    std::exit(1);
}

void ensure(bool holds, const std::string &what) {
    if (!holds) {
        fail(what);
    }
}

// Numbers that look random, the same ones in each run.
uint64_t mixed(uint64_t seed) {
    uint64_t x = seed + 0x9E3779B97F4A7C15u;
    x = (x ^ (x >> 30)) * 0xBF58476D1CE4E5B9u;
    x = (x ^ (x >> 27)) * 0x94D049BB133111EBu;
    return x ^ (x >> 31);
}

// All blocks, one after the other. No two are alike, and none can be compressed.
std::vector<uint8_t> all_blocks() {
    std::vector<uint8_t> bytes(COUNT * BLOCK);
    for (size_t at = 0; at < bytes.size(); at += 8) {
        uint64_t word = mixed(at);
        std::memcpy(&bytes[at], &word, 8);
    }
    return bytes;
}

const std::vector<uint8_t> BLOCKS = all_blocks();

const uint8_t *block_at(uint32_t address) {
    return &BLOCKS[address * BLOCK];
}

// ---- The unit: SHA-256 step by step as in the device's library, without vector instructions
// and without those made for it, so that the two take about the same time.

constexpr uint32_t K[64] = {
    0x428a2f98, 0x71374491, 0xb5c0fbcf, 0xe9b5dba5, 0x3956c25b, 0x59f111f1, 0x923f82a4, 0xab1c5ed5,
    0xd807aa98, 0x12835b01, 0x243185be, 0x550c7dc3, 0x72be5d74, 0x80deb1fe, 0x9bdc06a7, 0xc19bf174,
    0xe49b69c1, 0xefbe4786, 0x0fc19dc6, 0x240ca1cc, 0x2de92c6f, 0x4a7484aa, 0x5cb0a9dc, 0x76f988da,
    0x983e5152, 0xa831c66d, 0xb00327c8, 0xbf597fc7, 0xc6e00bf3, 0xd5a79147, 0x06ca6351, 0x14292967,
    0x27b70a85, 0x2e1b2138, 0x4d2c6dfc, 0x53380d13, 0x650a7354, 0x766a0abb, 0x81c2c92e, 0x92722c85,
    0xa2bfe8a1, 0xa81a664b, 0xc24b8b70, 0xc76c51a3, 0xd192e819, 0xd6990624, 0xf40e3585, 0x106aa070,
    0x19a4c116, 0x1e376c08, 0x2748774c, 0x34b0bcb5, 0x391c0cb3, 0x4ed8aa4a, 0x5b9cca4f, 0x682e6ff3,
    0x748f82ee, 0x78a5636f, 0x84c87814, 0x8cc70208, 0x90befffa, 0xa4506ceb, 0xbef9a3f7, 0xc67178f2};

uint32_t turned(uint32_t x, int by) {
    return (x >> by) | (x << (32 - by));
}

// The next word of the schedule, over the word 16 before it in a ring.
inline uint32_t next_word(uint32_t w[16], int i) {
    uint32_t x = w[(i + 1) % 16], y = w[(i + 14) % 16];
    uint32_t s0 = turned(x ^ turned(x, 11), 7) ^ (x >> 3);
    uint32_t s1 = turned(y ^ turned(y, 2), 17) ^ (y >> 10);
    return w[i % 16] += s0 + w[(i + 9) % 16] + s1;
}

// One round. Rotations are nested, as in the device's library: it takes fewer steps.
inline void round(uint32_t v[8], uint32_t k_and_word) {
    uint32_t a = v[0], b = v[1], c = v[2], d = v[3], e = v[4], f = v[5], g = v[6], h = v[7];
    uint32_t s1 = turned(e ^ turned(e ^ turned(e, 14), 5), 6);
    uint32_t t1 = h + s1 + (g ^ (e & (f ^ g))) + k_and_word;
    uint32_t s0 = turned(a ^ turned(a ^ turned(a, 9), 11), 2);
    uint32_t t2 = s0 + (b ^ ((a ^ b) & (b ^ c)));
    v[7] = g, v[6] = f, v[5] = e, v[4] = d + t1;
    v[3] = c, v[2] = b, v[1] = a, v[0] = t1 + t2;
}

void add_chunk(uint32_t state[8], const uint8_t *chunk) {
    uint32_t w[16], v[8];
    std::memcpy(v, state, sizeof v);
#pragma GCC unroll 16
    for (int i = 0; i < 16; i++) {
        uint32_t word;
        std::memcpy(&word, chunk + 4 * i, 4);
        w[i] = __builtin_bswap32(word);
        round(v, K[i] + w[i]);
    }
    for (int from = 16; from < 64; from += 16) {
#pragma GCC unroll 16
        for (int i = 0; i < 16; i++) {
            round(v, K[from + i] + next_word(w, i));
        }
    }
    for (int i = 0; i < 8; i++) {
        state[i] += v[i];
    }
}

// The hash of a page, whose length is a multiple of 64: the last chunk has no byte of it.
void plain_sha256(const uint8_t page[PAGE], uint8_t digest[32]) {
    static_assert(PAGE % 64 == 0);
    uint32_t state[8] = {0x6a09e667, 0xbb67ae85, 0x3c6ef372, 0xa54ff53a,
                         0x510e527f, 0x9b05688c, 0x1f83d9ab, 0x5be0cd19};
    for (size_t at = 0; at < PAGE; at += 64) {
        add_chunk(state, page + at);
    }
    uint8_t last[64] = {0x80};
    last[62] = uint8_t(PAGE * 8 >> 8);
    last[63] = uint8_t(PAGE * 8);
    add_chunk(state, last);
    for (int i = 0; i < 8; i++) {
        uint32_t word = __builtin_bswap32(state[i]);
        std::memcpy(digest + 4 * i, &word, 4);
    }
}

void openssl_sha256(const uint8_t page[PAGE], uint8_t digest[32]) {
    SHA256(page, PAGE, digest);
}

// ---- Time

uint64_t now() {
    auto since = std::chrono::steady_clock::now().time_since_epoch();
    return std::chrono::duration_cast<std::chrono::nanoseconds>(since).count();
}

// Nanoseconds for one hash of a page. Each page begins with the digest before, so that none is
// left out by the compiler.
uint64_t time_hash(void (*hash)(const uint8_t *, uint8_t *)) {
    uint8_t page[PAGE];
    std::memset(page, 0x5A, PAGE);
    uint64_t start = now();
    for (uint32_t i = 0; i < HASHES; i++) {
        hash(page, page);
    }
    return (now() - start) / HASHES;
}

// Prints what `work` took for each of the COUNT blocks, and the unit before and after it.
template <typename Work>
void time_blocks(const std::string &name, Work work) {
    uint64_t before = time_hash(plain_sha256);
    uint64_t start = now();
    work();
    uint64_t each = (now() - start) / COUNT;
    uint64_t after = time_hash(plain_sha256);
    std::printf("%s %lu %lu\n", name.c_str(), each, (before + after) / 2);
    std::fflush(stdout);
}

// ---- The stores

// A store of blocks by their addresses, open in a folder until it is dropped.
class Store {
public:
    virtual ~Store() = default;
    // One transaction, which is durable when this returns: `count` blocks from `first` on.
    virtual void write(uint32_t first, uint32_t count) = 0;
    // Copies a block.
    virtual void read(uint32_t address, uint8_t *out) = 0;
};

class Sqlite : public Store {
public:
    explicit Sqlite(const std::string &folder) {
        ensure(sqlite3_open((folder + "/blocks.db").c_str(), &db) == SQLITE_OK, "no SQLite");
        // A row lies on two such pages. With pages of 8,192 bytes, in which it fits, writes took
        // half as long again, and reads as long.
        run("PRAGMA page_size = 4096");
        ensure(told("PRAGMA journal_mode = WAL") == "wal", "SQLite keeps no WAL in this folder");
        run("PRAGMA synchronous = FULL");
        run("CREATE TABLE IF NOT EXISTS blocks(address INTEGER PRIMARY KEY, block BLOB NOT NULL)");
        put = prepared("INSERT OR REPLACE INTO blocks VALUES(?, ?)");
        get = prepared("SELECT block FROM blocks WHERE address = ?");
        begin = prepared("BEGIN IMMEDIATE");
        commit = prepared("COMMIT");
    }

    ~Sqlite() override {
        for (sqlite3_stmt *each : {put, get, begin, commit}) {
            sqlite3_finalize(each);
        }
        sqlite3_close(db);
    }

    void write(uint32_t first, uint32_t count) override {
        if (count > 1) {
            step(begin);
        }
        for (uint32_t address = first; address < first + count; address++) {
            sqlite3_bind_int64(put, 1, address);
            sqlite3_bind_blob(put, 2, block_at(address), BLOCK, SQLITE_STATIC);
            step(put);
        }
        if (count > 1) {
            step(commit);
        }
    }

    void read(uint32_t address, uint8_t *out) override {
        sqlite3_bind_int64(get, 1, address);
        ensure(sqlite3_step(get) == SQLITE_ROW, "SQLite has no row");
        ensure(sqlite3_column_bytes(get, 0) == int(BLOCK), "SQLite has another length");
        std::memcpy(out, sqlite3_column_blob(get, 0), BLOCK);
        sqlite3_reset(get);
    }

private:
    sqlite3 *db = nullptr;
    sqlite3_stmt *put = nullptr, *get = nullptr, *begin = nullptr, *commit = nullptr;

    void run(const char *text) {
        ensure(sqlite3_exec(db, text, nullptr, nullptr, nullptr) == SQLITE_OK, sqlite3_errmsg(db));
    }

    std::string told(const char *text) {
        sqlite3_stmt *asked = prepared(text);
        ensure(sqlite3_step(asked) == SQLITE_ROW, sqlite3_errmsg(db));
        std::string answer(reinterpret_cast<const char *>(sqlite3_column_text(asked, 0)));
        sqlite3_finalize(asked);
        return answer;
    }

    sqlite3_stmt *prepared(const char *text) {
        sqlite3_stmt *made = nullptr;
        ensure(sqlite3_prepare_v2(db, text, -1, &made, nullptr) == SQLITE_OK, sqlite3_errmsg(db));
        return made;
    }

    void step(sqlite3_stmt *statement) {
        ensure(sqlite3_step(statement) == SQLITE_DONE, sqlite3_errmsg(db));
        sqlite3_reset(statement);
    }
};

class Lmdb : public Store {
public:
    explicit Lmdb(const std::string &folder) {
        check(mdb_env_create(&env));
        check(mdb_env_set_mapsize(env, 1u << 30));
        check(mdb_env_open(env, folder.c_str(), 0, 0644));
        MDB_txn *txn = nullptr;
        check(mdb_txn_begin(env, nullptr, 0, &txn));
        check(mdb_dbi_open(txn, nullptr, MDB_INTEGERKEY | MDB_CREATE, &dbi));
        check(mdb_txn_commit(txn));
        check(mdb_txn_begin(env, nullptr, MDB_RDONLY, &reader));
        mdb_txn_reset(reader);
    }

    ~Lmdb() override {
        mdb_txn_abort(reader);
        mdb_env_close(env);
    }

    void write(uint32_t first, uint32_t count) override {
        MDB_txn *txn = nullptr;
        check(mdb_txn_begin(env, nullptr, 0, &txn));
        for (uint32_t address = first; address < first + count; address++) {
            MDB_val key = {sizeof address, &address};
            MDB_val data = {BLOCK, const_cast<uint8_t *>(block_at(address))};
            check(mdb_put(txn, dbi, &key, &data, 0));
        }
        check(mdb_txn_commit(txn));
    }

    void read(uint32_t address, uint8_t *out) override {
        MDB_val key = {sizeof address, &address};
        MDB_val data;
        check(mdb_txn_renew(reader));
        check(mdb_get(reader, dbi, &key, &data));
        ensure(data.mv_size == BLOCK, "LMDB has another length");
        std::memcpy(out, data.mv_data, BLOCK);
        mdb_txn_reset(reader);
    }

private:
    MDB_env *env = nullptr;
    MDB_dbi dbi = 0;
    MDB_txn *reader = nullptr;

    void check(int status) {
        ensure(status == MDB_SUCCESS, mdb_strerror(status));
    }
};

class Rocks : public Store {
public:
    explicit Rocks(const std::string &folder) {
        rocksdb::BlockBasedTableOptions table;
        // A block that is found in the cache is not checked again.
        table.no_block_cache = true;
        rocksdb::Options options;
        options.create_if_missing = true;
        options.compression = rocksdb::kNoCompression;
        options.table_factory.reset(rocksdb::NewBlockBasedTableFactory(table));
        rocksdb::DB *opened = nullptr;
        check(rocksdb::DB::Open(options, folder, &opened));
        db.reset(opened);
        durable.sync = true;
        checked.verify_checksums = true;
    }

    void write(uint32_t first, uint32_t count) override {
        rocksdb::WriteBatch batch;
        for (uint32_t address = first; address < first + count; address++) {
            uint32_t key = __builtin_bswap32(address);
            check(batch.Put(slice(&key, sizeof key), slice(block_at(address), BLOCK)));
        }
        check(db->Write(durable, &batch));
    }

    void read(uint32_t address, uint8_t *out) override {
        uint32_t key = __builtin_bswap32(address);
        rocksdb::PinnableSlice data;
        check(db->Get(checked, db->DefaultColumnFamily(), slice(&key, sizeof key), &data));
        ensure(data.size() == BLOCK, "RocksDB has another length");
        std::memcpy(out, data.data(), BLOCK);
    }

private:
    std::unique_ptr<rocksdb::DB> db;
    rocksdb::WriteOptions durable;
    rocksdb::ReadOptions checked;

    static rocksdb::Slice slice(const void *bytes, size_t length) {
        return rocksdb::Slice(static_cast<const char *>(bytes), length);
    }

    void check(const rocksdb::Status &status) {
        ensure(status.ok(), status.ToString());
    }
};

// ---- What is timed

// Writes all blocks in order, so many in each transaction.
void write_all(Store &store, uint32_t count) {
    for (uint32_t first = 0; first < COUNT; first += count) {
        store.write(first, count);
    }
}

// Reads as many blocks as there are, each drawn at random.
void read_at_random(Store &store) {
    uint8_t out[BLOCK];
    for (uint32_t i = 0; i < COUNT; i++) {
        uint32_t address = mixed(i) % COUNT;
        store.read(address, out);
        ensure(std::memcmp(out, block_at(address), 8) == 0, "a read gave another block");
    }
}

// Whether each block is there, byte for byte.
void compare_all(Store &store) {
    uint8_t out[BLOCK];
    for (uint32_t address = 0; address < COUNT; address++) {
        store.read(address, out);
        ensure(std::memcmp(out, block_at(address), BLOCK) == 0, "a block differs");
    }
}

// Times a new store in a folder of its own, which is removed.
template <typename Kind>
void time_writes(const std::string &name, const std::string &folder, uint32_t count, bool reads) {
    std::string own = folder + "/" + name;
    std::filesystem::create_directory(own);
    {
        Kind store(own);
        time_blocks(name + (count == 1 ? " one" : " group"), [&] { write_all(store, count); });
    }
    {
        // Opened again, so that a store has put what it logged where it reads it.
        Kind store(own);
        if (reads) {
            time_blocks(name + " read", [&] { read_at_random(store); });
        }
        compare_all(store);
    }
    std::filesystem::remove_all(own);
}

template <typename Kind>
void time_store(const std::string &name, const std::string &folder) {
    time_writes<Kind>(name, folder, 1, true);
    time_writes<Kind>(name, folder, GROUP, false);
}

// The two hashes have to be the same before either is timed.
void compare_hashes() {
    uint8_t plain[32], other[32];
    plain_sha256(block_at(1), plain);
    openssl_sha256(block_at(1), other);
    ensure(std::memcmp(plain, other, 32) == 0, "the plain SHA-256 is wrong");
}

void time_hashes() {
    uint64_t plain = time_hash(plain_sha256);
    uint64_t openssl = time_hash(openssl_sha256);
    plain = (plain + time_hash(plain_sha256)) / 2;
    std::printf("hash plain %lu %lu\nhash openssl %lu %lu\n", plain, plain, openssl, plain);
}

void print_versions() {
    int major, minor, patch;
    mdb_version(&major, &minor, &patch);
    std::printf("version sqlite %s\n", sqlite3_libversion());
    std::printf("version lmdb %d.%d.%d\n", major, minor, patch);
    std::printf("version rocksdb %s\n", rocksdb::GetRocksVersionAsString().c_str());
    std::printf("version openssl %s\n", OpenSSL_version(OPENSSL_VERSION_STRING));
}

}  // namespace

int main(int count, char **words) {
    ensure(count == 2, "usage: peers FOLDER");
    compare_hashes();
    print_versions();
    time_hashes();
    time_store<Sqlite>("sqlite", words[1]);
    time_store<Lmdb>("lmdb", words[1]);
    time_store<Rocks>("rocksdb", words[1]);
    return 0;
}
