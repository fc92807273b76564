// Measures the library beside libxml2, pugixml and expat on one book:
//
//   measure NAME BOOK PATTERNS ROUNDS
//
// Prints one row for reading and one for each pattern, as `read|..` and `find|..` with `|` between the fields. What counts is the least CPU
// time of all rounds; in each round everything runs once. Memory that is freed is kept, so that nobody pays for fresh pages.
#include <expat.h>
#include <libxml/parser.h>
#include <libxml/xpath.h>
#include <malloc.h>
#include <time.h>

#include <algorithm>
#include <cstdio>
#include <cstdlib>
#include <cstring>
#include <fstream>
#include <functional>
#include <iterator>
#include <pugixml.hpp>
#include <set>
#include <string>
#include <vector>

#include "twigfinder.h"

namespace {

double now() {
    timespec t;
    clock_gettime(CLOCK_PROCESS_CPUTIME_ID, &t);
    return t.tv_sec * 1e6 + t.tv_nsec / 1e3;
}

[[noreturn]] void fail(const std::string &why) {
    std::fprintf(stderr, "measure: %s\n", why.c_str());
    std::exit(1);
}

std::string contents(const char *path) {
    std::ifstream in(path, std::ios::binary);
    if (!in)
        fail(std::string("no ") + path);
    return std::string(std::istreambuf_iterator<char>(in), {});
}

// A call with its least time in microseconds. What has to be ready before it, and put away after it, is not timed.
struct Timed {
    std::function<void()> call, before, after;
    double least = 1e18;

    explicit Timed(std::function<void()> call, std::function<void()> before = {}, std::function<void()> after = {})
        : call(std::move(call)), before(std::move(before)), after(std::move(after)) {}

    void run() {
        if (before)
            before();
        double start = now();
        call();
        least = std::min(least, now() - start);
        if (after)
            after();
    }
};

const uint8_t *bytes(const std::string &s) { return reinterpret_cast<const uint8_t *>(s.data()); }

size_t granted(twigfinder_answer a, const char *what) {
    if (a.number != 0)
        fail(std::string(what) + ": refused " + std::to_string(a.number) + " at " + std::to_string(a.place));
    return a.count;
}

unsigned long counted;

}  // namespace

int main(int argc, char **argv) {
    if (argc != 5)
        fail("usage: measure NAME BOOK PATTERNS ROUNDS");
    mallopt(M_MMAP_MAX, 0);
    mallopt(M_TRIM_THRESHOLD, 1 << 30);
    const std::string text = contents(argv[2]);
    const int rounds = std::atoi(argv[4]);

    // reading
    std::vector<uint8_t> sheet(TWIGFINDER_SHEET_BYTES);
    size_t sheet_len = 0;
    std::string copy;
    pugi::xml_document tree;
    xmlDocPtr doc = nullptr;
    const int options = XML_PARSE_NONET | XML_PARSE_HUGE | XML_PARSE_COMPACT;

    Timed index{[&] { sheet_len = granted(twigfinder_index(bytes(text), text.size(), sheet.data(), sheet.size()), "index"); }};
    Timed check{[&] { granted(twigfinder_check(sheet.data(), sheet_len), "check"); }};
    Timed pugi_copy{[&] {
                        if (!tree.load_buffer(text.data(), text.size(), pugi::parse_minimal, pugi::encoding_utf8))
                            fail("pugixml");
                    },
                    [&] { tree.reset(); }};
    Timed pugi_place{[&] {
                         if (!tree.load_buffer_inplace(&copy[0], copy.size(), pugi::parse_minimal, pugi::encoding_utf8))
                             fail("pugixml");
                     },
                     [&] {
                         tree.reset();
                         copy = text;
                     }};
    Timed libxml{[&] {
                     doc = xmlReadMemory(text.data(), static_cast<int>(text.size()), nullptr, nullptr, options);
                     if (doc == nullptr)
                         fail("libxml2");
                 },
                 [&] {
                     if (doc != nullptr)
                         xmlFreeDoc(doc);
                 }};
    Timed expat{[&] {
        XML_Parser parser = XML_ParserCreate("UTF-8");
        XML_SetElementHandler(
            parser, [](void *, const XML_Char *, const XML_Char **) { counted++; }, [](void *, const XML_Char *) { counted++; });
        if (XML_Parse(parser, text.data(), static_cast<int>(text.size()), 1) != XML_STATUS_OK)
            fail("expat");
        XML_ParserFree(parser);
    }};
    for (int round = 0; round < rounds; round++)
        for (Timed *t : {&index, &check, &pugi_place, &pugi_copy, &libxml, &expat})
            t->run();
    unsigned elements = sheet[4] | sheet[5] << 8 | sheet[6] << 16, names = sheet[8] | sheet[9] << 8;
    std::printf("read|%s|%zu|%u|%u|%.0f|%.0f|%.0f|%.0f|%.0f|%.0f\n", argv[1], text.size(), elements, names, index.least, check.least, pugi_copy.least,
                pugi_place.least, libxml.least, expat.least);

    // how many elements the lists of a pattern's nodes have
    auto listed = [&](const std::string &pattern) {
        size_t sum = 0;
        for (const char *p = pattern.c_str(); *p != 0;) {
            size_t length = std::strcspn(p, "/[]");
            if (length > 0 && std::string(p, length) != ".") {
                std::string one = "//" + std::string(p, length);
                twigfinder_answer few = twigfinder_count(sheet.data(), sheet_len, bytes(one), one.size(), 0);
                sum += few.number == 19 ? few.place : 0;
            }
            p += length + (p[length] != 0);
        }
        return sum;
    };

    // patterns
    std::vector<twigfinder_place> places;
    std::ifstream in(argv[3]);
    for (std::string pattern; std::getline(in, pattern);) {
        auto find = [&](size_t rows) {
            return twigfinder_find(sheet.data(), sheet_len, bytes(pattern), pattern.size(), rows, 0, places.data(), places.size());
        };
        places.resize(1);
        twigfinder_answer few = find(0);
        size_t rows = few.number == 19 ? few.place : 0;
        size_t all = granted(twigfinder_count(sheet.data(), sheet_len, bytes(pattern), pattern.size(), rows), "count");
        places.resize(all + 1);
        Timed ours{[&] { granted(find(rows), "find"); }};

        xmlXPathContextPtr context = xmlXPathNewContext(doc);
        xmlXPathCompExprPtr compiled = xmlXPathCompile(BAD_CAST pattern.c_str());
        xmlXPathObjectPtr object = nullptr;
        Timed theirs{[&] { object = xmlXPathCompiledEval(compiled, context); },
                     [&] {
                         if (object != nullptr)
                             xmlXPathFreeObject(object);
                     }};
        pugi::xpath_query query(pattern.c_str());
        pugi::xpath_node_set set;
        Timed pugis{[&] { set = query.evaluate_node_set(tree); }};

        // a slow one is not run as often
        double spent = 0;
        for (int round = 0; round < rounds && spent < 2e6; round++) {
            double start = now();
            for (Timed *t : {&ours, &check, &theirs, &pugis})
                t->run();
            spent += now() - start;
        }

        // the elements of the last node, each once, are the node set of the XPath
        size_t last = 0;
        while (all > 0 && last + 1 < TWIGFINDER_NODES && places[0].starts[last + 1] != TWIGFINDER_NONE)
            last++;
        std::set<uint32_t> ends;
        for (size_t k = 0; k < all; k++)
            ends.insert(places[k].starts[last]);
        size_t nodes = object->nodesetval == nullptr ? 0 : static_cast<size_t>(object->nodesetval->nodeNr);
        if (ends.size() != nodes || nodes != set.size())
            fail(pattern + ": " + std::to_string(ends.size()) + ", " + std::to_string(nodes) + " and " + std::to_string(set.size()) + " elements");
        std::printf("find|%s|%s|%zu|%zu|%zu|%.1f|%.1f|%.1f|%.1f\n", argv[1], pattern.c_str(), listed(pattern), all, nodes, ours.least, check.least,
                    theirs.least, pugis.least);
        xmlXPathFreeObject(object);
        xmlXPathFreeCompExpr(compiled);
        xmlXPathFreeContext(context);
    }
    xmlFreeDoc(doc);
    return 0;
}
