// Writes random lines of a seed and bytes in hex, and the hash that GNU's C++ library gives each, which is MurmurHash64A.
// Use: hash COUNT LINES HASHES
#include <cinttypes>
#include <cstdint>
#include <cstdio>
#include <cstdlib>
#include <functional>
#include <random>
#include <vector>

int main(int argc, char** argv) {
  if (argc != 4) return 2;
  const int count = std::atoi(argv[1]);
  std::FILE* lines = std::fopen(argv[2], "w");
  std::FILE* hashes = std::fopen(argv[3], "w");
  if (!lines || !hashes) return 2;
  std::mt19937_64 random(20211107);
  for (int i = 0; i < count; ++i) {
    // every length up to 99 in turn, and now and then a long one
    const std::size_t length = i % 50 == 49 ? random() % 5000 : i % 100;
    const std::uint64_t seed = i % 3 == 0 ? std::uint64_t(i) : random();
    std::vector<unsigned char> bytes(length);
    for (auto& byte : bytes) byte = static_cast<unsigned char>(random());
    std::fprintf(lines, "%" PRIu64 " ", seed);
    for (auto byte : bytes) std::fprintf(lines, "%02x", byte);
    std::fprintf(lines, "\n");
    std::fprintf(hashes, "%016" PRIx64 "\n", std::uint64_t(std::_Hash_bytes(bytes.data(), length, seed)));
  }
  return std::fclose(lines) == 0 && std::fclose(hashes) == 0 ? 0 : 2;
}
