// Other minimal perfect hashes on a list of keys, for bench/field.sh: BBHash (BooPHF.h) and CHD and BDZ of cmph.
// usage: peers bbhash|chd|bdz KEYS. It prints seconds of the build, bits a key, nanoseconds of a lookup in random order, and the
// peak of memory in MiB. The file of keys, a line each, is read before the clock starts. It stops where two keys share a value.
#include <BooPHF.h>
#include <cmph.h>

#include <algorithm>
#include <chrono>
#include <cstdint>
#include <cstdio>
#include <cstdlib>
#include <cstring>
#include <fstream>
#include <iterator>
#include <random>
#include <sstream>
#include <string>
#include <string_view>
#include <sys/resource.h>
#include <vector>

namespace {

using Clock = std::chrono::steady_clock;
using Keys = std::vector<std::string_view>;

double seconds_since(Clock::time_point start) { return std::chrono::duration<double>(Clock::now() - start).count(); }

double peak_mebibytes() {
    rusage usage{};
    getrusage(RUSAGE_SELF, &usage);
    return usage.ru_maxrss / 1024.0;
}

[[noreturn]] void stop(const std::string &why) {
    std::fprintf(stderr, "peers: %s\n", why.c_str());
    std::exit(1);
}

Keys lines_of(const std::string &text) {
    Keys keys;
    for (size_t from = 0; from < text.size();) {
        size_t end = std::min(text.find('\n', from), text.size());
        keys.emplace_back(text.data() + from, end - from);
        from = end + 1;
    }
    return keys;
}

// BBHash takes numbers that differ, so that a string needs a hash of its own before it; its time is in the build and in lookups.
struct Number {
    uint64_t operator()(std::string_view key, uint64_t seed = 0) const {
        uint64_t h = seed ^ 0x9E3779B97F4A7C15u ^ key.size();
        while (key.size() >= 8) {
            uint64_t word;
            std::memcpy(&word, key.data(), 8);
            h = mixed(h ^ word);
            key.remove_prefix(8);
        }
        uint64_t word = 0;
        std::memcpy(&word, key.data(), key.size());
        return mixed(h ^ word);
    }

  private:
    static uint64_t mixed(uint64_t x) {
        x = (x ^ (x >> 30)) * 0xBF58476D1CE4E5B9u;
        x = (x ^ (x >> 27)) * 0x94D049BB133111EBu;
        return x ^ (x >> 31);
    }
};

// What a peer came to: its bits, and the values of keys.
template <typename Lookup> void report(const Keys &keys, double built, double bits, const Lookup &value_of) {
    double peak = peak_mebibytes();
    Keys shuffled = keys;
    std::shuffle(shuffled.begin(), shuffled.end(), std::mt19937_64(1));
    double least = 1e99;
    for (int pass = 0; pass < 3; pass++) {
        uint64_t sum = 0;
        auto start = Clock::now();
        for (std::string_view key : shuffled)
            sum += value_of(key);
        least = std::min(least, seconds_since(start));
        if (sum == 0 && keys.size() > 1)
            stop("the values are all 0");
    }
    std::vector<bool> seen(keys.size());
    for (std::string_view key : keys) {
        uint64_t value = value_of(key);
        if (value >= seen.size() || seen[value])
            stop("two keys share a value, or one is out of range");
        seen[value] = true;
    }
    std::printf("%.3f %.2f %.1f %.1f\n", built, bits, least / keys.size() * 1e9, peak);
}

void try_bbhash(const Keys &keys) {
    auto start = Clock::now();
    std::vector<uint64_t> numbers;
    numbers.reserve(keys.size());
    for (std::string_view key : keys)
        numbers.push_back(Number()(key));
    boomphf::mphf<uint64_t, boomphf::SingleHashFunctor<uint64_t>> hash(numbers.size(), numbers, 1, 2.0, false, false);
    double built = seconds_since(start);
    std::vector<uint64_t>().swap(numbers);
    std::ostringstream saved;
    hash.save(saved);
    double bits = saved.str().size() * 8.0 / keys.size();
    report(keys, built, bits, [&](std::string_view key) { return hash.lookup(Number()(key)); });
}

// cmph asks for one key after another.
struct Source {
    const Keys *keys;
    size_t next;
};

int read_key(void *data, char **key, cmph_uint32 *length) {
    auto *source = static_cast<Source *>(data);
    std::string_view line = (*source->keys)[source->next++];
    *key = const_cast<char *>(line.data());
    *length = line.size();
    return line.size();
}

void let_go(void *, char *, cmph_uint32) {}

void rewind_keys(void *data) { static_cast<Source *>(data)->next = 0; }

void try_cmph(const Keys &keys, CMPH_ALGO algorithm) {
    Source source{&keys, 0};
    cmph_io_adapter_t adapter{};
    adapter.data = &source;
    adapter.nkeys = keys.size();
    adapter.read = read_key;
    adapter.dispose = let_go;
    adapter.rewind = rewind_keys;
    auto start = Clock::now();
    cmph_config_t *config = cmph_config_new(&adapter);
    cmph_config_set_algo(config, algorithm);
    if (algorithm == CMPH_CHD) {
        cmph_config_set_graphsize(config, 0.99);
        cmph_config_set_b(config, 4);
    }
    cmph_t *hash = cmph_new(config);
    double built = seconds_since(start);
    cmph_config_destroy(config);
    if (!hash)
        stop("cmph found none");
    double bits = cmph_packed_size(hash) * 8.0 / keys.size();
    report(keys, built, bits, [&](std::string_view key) { return cmph_search(hash, key.data(), key.size()); });
    cmph_destroy(hash);
}

} // namespace

int main(int count, char **words) {
    if (count != 3)
        stop("usage: peers bbhash|chd|bdz KEYS");
    std::ifstream file(words[2], std::ios::binary);
    std::stringstream text;
    text << file.rdbuf();
    const std::string bytes = std::move(text).str();
    Keys keys = lines_of(bytes);
    const std::string peer = words[1];
    if (peer == "bbhash")
        try_bbhash(keys);
    else if (peer == "chd")
        try_cmph(keys, CMPH_CHD);
    else if (peer == "bdz")
        try_cmph(keys, CMPH_BDZ);
    else
        stop("no peer of this name");
}
