// The yardstick of the readers: splits the same bytes at commas, parses the numbers and sorts the pairs.
#include <algorithm>
#include <cstdint>
#include <cstdio>
#include <cstdlib>
#include <fstream>
#include <iterator>
#include <string>
#include <tuple>
#include <vector>

using Pair = std::tuple<uint32_t, uint8_t, uint32_t, uint8_t>;

static std::string read_file(const char *name) {
    std::ifstream in(name, std::ios::binary);
    return std::string(std::istreambuf_iterator<char>(in), std::istreambuf_iterator<char>());
}

// Calls `row` with the numbers behind the first field of each line.
template <class Row> static void each_row(const std::string &text, Row row) {
    std::vector<uint32_t> numbers;
    size_t at = 0;
    while (at < text.size()) {
        numbers.clear();
        while (at < text.size() && text[at] != ',' && text[at] != '\n') at++;
        while (at < text.size() && text[at] == ',') {
            uint32_t number = 0;
            for (at++; at < text.size() && text[at] >= '0' && text[at] <= '9'; at++) number = number * 10 + (text[at] - '0');
            numbers.push_back(number);
        }
        at++;
        row(numbers);
    }
}

int main(int count, char **names) {
    if (count != 3) return 2;
    size_t channels = 0;
    each_row(read_file(names[1]), [&](const std::vector<uint32_t> &row) { channels += row.size() - 1; });
    std::vector<Pair> pairs;
    each_row(read_file(names[2]), [&](const std::vector<uint32_t> &row) {
        for (size_t i = 3; i < row.size(); i++) {
            if (row[2] < row[i]) pairs.emplace_back(row[2], row[0], row[i], row[1]);
            else pairs.emplace_back(row[i], row[1], row[2], row[0]);
        }
    });
    std::sort(pairs.begin(), pairs.end());
    pairs.erase(std::unique(pairs.begin(), pairs.end()), pairs.end());
    std::printf("%zu %zu\n", channels, pairs.size());
}
