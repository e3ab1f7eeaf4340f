// Prints what `eds split TYPE RECORDING FILE...` prints, a line for each packet of a recording, by the library:
//
//     c++ -std=c++17 split.cpp $(pkg-config --cflags --libs eds) -o split
//     ./split Space/Packet examples/split/packets.bin examples/ccsds/sheet.json
#include <cstdint>
#include <fstream>
#include <iostream>
#include <iterator>
#include <new>
#include <set>
#include <string>
#include <string_view>
#include <vector>

#include "eds.h"

namespace {

/// A list of fields, whose memory goes with it.
class Block {
public:
    Block() = default;
    ~Block() { eds_drop(&block_); }
    Block(const Block &) = delete;
    Block &operator=(const Block &) = delete;

    Block &add(std::string_view field) {
        if (!eds_add(&block_, field.data(), field.size())) throw std::bad_alloc();
        return *this;
    }

    const eds_block *get() const { return &block_; }

private:
    eds_block block_ = EDS_EMPTY;
};

/// How a command ended, and its report.
struct Report {
    eds_status status;
    std::string text;
};

/// Runs a command in a room of 64 KiB, or in one of the size that its report needs.
Report run(const Block &words, const Block &files) {
    std::string room(1 << 16, '\0');
    eds_answer answer = eds_run(words.get(), files.get(), room.data(), room.size());
    if (answer.status == EDS_ROOM) {
        room.resize(answer.length);
        answer = eds_run(words.get(), files.get(), room.data(), room.size());
    }
    if (answer.status == EDS_MEMORY) throw std::bad_alloc();
    room.resize(answer.length);
    return {static_cast<eds_status>(answer.status), room};
}

/// Adds a file with its name. One that can't be read is left out, and the report says so.
void add_file(Block &files, const std::string &name) {
    std::ifstream file(name, std::ios::binary);
    if (file) files.add(name).add(std::string(std::istreambuf_iterator<char>(file), {}));
}

}  // namespace

int main(int count, char **given) {
    const std::vector<std::string> words(given + 1, given + count);
    Block command, files;
    command.add("split");
    std::set<std::string> named;
    for (std::size_t at = 0; at < words.size(); ++at) {
        command.add(words[at]);
        // no two files of a request have one name
        if (at > 0 && named.insert(words[at]).second) add_file(files, words[at]);
    }
    const Report report = run(command, files);
    std::cout << report.text;
    return report.status;
}
