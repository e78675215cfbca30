// opensp.cc - times OpenSP's parser library: the best of many parses.
// opensp FILE.type..: each the internal subset of a document type declaration. opensp -d TYPE DOCUMENT..: documents under it.
#include <OpenSP/ParserEventGeneratorKit.h>
#include <chrono>
#include <cstdio>
#include <fstream>
#include <iterator>
#include <string>

// Counts the tags, written and inferred.
struct Counting : SGMLApplication {
    unsigned long tags = 0;
    void startElement(const StartElementEvent &) override { tags++; }
    void endElement(const EndElementEvent &) override { tags++; }
};

static std::string text(const char *path)
{
    std::ifstream in(path, std::ios::binary);
    return std::string((std::istreambuf_iterator<char>(in)), std::istreambuf_iterator<char>());
}

// Parses the text under its type, and prints the name, the time and how many tags there were.
static void time_it(const char *name, const std::string &type, const std::string &document)
{
    std::string path = std::string(name) + ".doc";
    size_t at = type.find("ELEMENT ") + 8;
    std::string root = type.substr(at, type.find(' ', at) - at);
    std::ofstream(path, std::ios::binary) << "<!DOCTYPE " << root << " [" << type << "]>" << (document.empty() ? "<" + root + ">" : document);
    double best = 1e12;
    unsigned long tags = 0;
    for (int k = 0; k < 60; k++) {
        auto start = std::chrono::steady_clock::now();
        ParserEventGeneratorKit kit;
        kit.setOption(ParserEventGeneratorKit::showOpenEntities);
        char *file = const_cast<char *>(path.c_str());
        EventGenerator *events = kit.makeEventGenerator(1, &file);
        events->inhibitMessages(true);
        Counting application;
        events->run(application);
        delete events;
        double t = std::chrono::duration<double, std::micro>(std::chrono::steady_clock::now() - start).count();
        tags = application.tags;
        if (t < best)
            best = t;
    }
    std::printf("%s %.2f %lu\n", name, best, tags);
}

int main(int argc, char **argv)
{
    if (argc > 2 && std::string(argv[1]) == "-d") {
        for (int i = 3; i < argc; i++)
            time_it(argv[i], text(argv[2]), text(argv[i]));
        return 0;
    }
    for (int i = 1; i < argc; i++)
        time_it(argv[i], text(argv[i]), "");
}
