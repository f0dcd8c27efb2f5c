// Writes each line of standard input anew, as the record of its loose reading says: one form of priority, timestamp and
// tag for lines of many makes.
//
//     relog < FILE
//
// A line that no rules read becomes a message; one that is refused is told on standard error, with its number.
#include <iostream>
#include <stdexcept>
#include <string>
#include <vector>

#include "khamdoriem.h"

namespace {

// A refusal's number, as an exception.
struct Refused : std::runtime_error {
    explicit Refused(std::uint32_t number) : std::runtime_error(khamdoriem_refusal_text(number)), number(number) {}
    std::uint32_t number;
};

void check(std::uint32_t number) {
    if (number != KHAMDORIEM_DONE) throw Refused(number);
}

const std::uint8_t *bytes(const std::string &s) { return reinterpret_cast<const std::uint8_t *>(s.data()); }

// The memory of a reading, made once for all lines. The vectors are never empty, so that their data() is never null.
class Reader {
public:
    Reader(std::uint32_t year, std::int32_t offset)
        : year(year), offset(offset), elements(KHAMDORIEM_ELEMENTS_ENOUGH), params(KHAMDORIEM_PARAMS_ENOUGH),
          record(KHAMDORIEM_RECORD), output(KHAMDORIEM_OUTPUT_ENOUGH) {
        if (khamdoriem_interface() != KHAMDORIEM_INTERFACE) throw std::logic_error("another archive than the header's");
    }

    // The line as its record prints. It stays until the next call.
    const std::string &printed(const std::string &line) {
        check(khamdoriem_read_loose(bytes(line), line.size(), KHAMDORIEM_VARIANT_EITHER, year, offset, elements.data(),
                                    elements.size(), params.data(), params.size(), record.data(), record.size())
                  .number);
        const khamdoriem_written written =
            khamdoriem_print(bytes(line), line.size(), record.data(), record.size(), elements.data(), elements.size(),
                             params.data(), params.size(), output.data(), output.size());
        check(written.number);
        text.assign(output.begin(), output.begin() + static_cast<std::ptrdiff_t>(written.len));
        return text;
    }

private:
    std::uint32_t year;
    std::int32_t offset;
    std::vector<khamdoriem_element> elements;
    std::vector<khamdoriem_param> params;
    std::vector<std::uint8_t> record;
    std::vector<std::uint8_t> output;
    std::string text;
};

} // namespace

int main(int argc, char **) {
    if (argc != 1) {
        std::cerr << "usage: relog < FILE\n";
        return 2;
    }
    try {
        Reader reader(2026, 60);
        std::string line;
        for (unsigned long number = 1; std::getline(std::cin, line); number++) {
            try {
                std::cout << reader.printed(line) << '\n';
            } catch (const Refused &refused) {
                std::cerr << "relog: line " << number << ": refusal " << refused.number << ": " << refused.what()
                          << '\n';
            }
        }
        if (std::cin.bad()) throw std::runtime_error("standard input cannot be read");
        if (!std::cout.flush()) throw std::runtime_error("standard output cannot be written");
    } catch (const std::exception &e) {
        std::cerr << "relog: " << e.what() << '\n';
        return 1;
    }
    return 0;
}
