// Prints the names that a shader has once it is preprocessed, each with its bytes: names < shader.frag
#include "pp.h"

#include <iostream>
#include <iterator>
#include <string>
#include <vector>

const uint8_t *bytes(const std::string &text) { return reinterpret_cast<const uint8_t *>(text.data()); }

int main() {
    const std::string source(std::istreambuf_iterator<char>(std::cin), {});
    const std::string words = "GL_ES1"; // the name and the content of the one definition
    pp_definition gl_es = {0, 5, 5, 1, 0, 0, 0, 0, 0};
    pp_sizes sizes = {source.size() + 16, source.size() + 16}; // a guess
    std::vector<pp_item> items;
    std::vector<uint8_t> texts;
    uint32_t answer;
    do { // neither list may be empty: its pointer would be null
        items.resize(sizes.items + 1);
        texts.resize(sizes.texts + 1);
        answer = pp_preprocess(bytes(source), source.size(), bytes(words), words.size(), &gl_es, 1, items.data(),
                               items.size(), texts.data(), texts.size(), &sizes);
    } while (answer == PP_TOO_SMALL);
    if (answer != PP_DONE) return 2;
    for (uint64_t n = 0; n < sizes.items; n += 1 + items[n].children) {
        const pp_item &it = items[n];
        if (it.kind == PP_ERROR) {
            std::cerr << "error " << it.error << ", " << items[n + 1].start << ".." << items[n + 1].end << '\n';
            return 1;
        }
        if (it.kind == PP_IDENT) {
            const auto text = reinterpret_cast<const char *>(texts.data() + it.value);
            std::cout << std::string(text, it.text_length) << ' ' << it.start << ".." << it.end << '\n';
        }
    }
}
