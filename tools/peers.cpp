// Other engines on the cases of the program `bench`: the longest stretch, the marks, the groups of the longest stretch, and the three
// lines that the program `mark` prints. With no argument it prints their answers, and with a number the nanoseconds that each takes, in
// the best of some rounds of at least so many microseconds. `compare.py` builds and runs it; by hand:
//
//     apt-get install g++ libre2-dev libpcre2-dev libtre-dev libhyperscan-dev
//     g++ -O2 -std=c++17 tools/peers.cpp -o peers -lre2 -lpcre2-8 -ltre -lhs && ./peers && ./peers 500
//
// No engine has these reports as calls of its own. RE2, PCRE2 and TRE are asked for one longest match after another, from left to right,
// and no further once no later match can change the answer; each in two ways, match by match at every start, and by searching for the
// next start that matches. The faster way counts. Hyperscan reports for each end the leftmost start, in one scan.
#define PCRE2_CODE_UNIT_WIDTH 8
#include <hs/hs.h>
#include <pcre2.h>
#include <re2/re2.h>
#include <tre/tre.h>

#include <algorithm>
#include <charconv>
#include <chrono>
#include <cmath>
#include <cstdio>
#include <cstdlib>
#include <cstring>
#include <memory>
#include <string>
#include <string_view>
#include <vector>

using std::string;

struct Span {
    int left = -1, right = -1;
};

// What is reported of a line. `marks` is written only where it is wanted.
struct Report {
    Span longest;
    std::vector<char> marks;
    std::vector<Span> groups;
};

struct Case {
    string name, pattern, line;
    size_t groups;
};

// One longest match after another. `find` gives the leftmost one from a place on, or where `here` is set only one that begins there.
struct Matcher {
    virtual ~Matcher() = default;
    virtual bool find(const string& line, int from, bool here, Span& found) = 0;
    // The groups of a match of the whole stretch; false where there is none, or the engine gives up.
    virtual bool split(const string& line, Span stretch, std::vector<Span>& groups) = 0;
};

struct Re2 : Matcher {
    RE2 re;
    explicit Re2(const Case& c) : re(c.pattern, options()) {}
    static RE2::Options options() {
        RE2::Options o;
        o.set_longest_match(true);
        o.set_dot_nl(true);
        return o;
    }
    bool find(const string& line, int from, bool here, Span& found) override {
        re2::StringPiece m;
        if (!re.Match(line, from, line.size(), here ? RE2::ANCHOR_START : RE2::UNANCHORED, &m, 1)) return false;
        found.left = m.data() - line.data();
        found.right = found.left + m.size();
        return true;
    }
    bool split(const string& line, Span stretch, std::vector<Span>& groups) override {
        re2::StringPiece m[9];
        if (!re.Match(line, stretch.left, stretch.right, RE2::ANCHOR_BOTH, m, groups.size() + 1)) return false;
        for (size_t k = 0; k < groups.size(); k++) {
            int left = m[k + 1].data() ? int(m[k + 1].data() - line.data()) : -1;
            groups[k] = {left, left + int(m[k + 1].size())};
        }
        return true;
    }
};

struct Pcre2 : Matcher {
    pcre2_code *re, *whole;
    pcre2_match_data* data = pcre2_match_data_create(64, nullptr);
    pcre2_match_context* context = pcre2_match_context_create(nullptr);
    std::vector<int> work = std::vector<int>(20000);
    explicit Pcre2(const Case& c) : re(compile(c, 0)), whole(compile(c, PCRE2_ANCHORED | PCRE2_ENDANCHORED)) {
        pcre2_jit_compile(whole, PCRE2_JIT_COMPLETE);
        pcre2_set_match_limit(context, 1000000);
    }
    static pcre2_code* compile(const Case& c, uint32_t options) {
        int error;
        PCRE2_SIZE at;
        return pcre2_compile((PCRE2_SPTR)c.pattern.data(), c.pattern.size(), options | PCRE2_DOTALL, &error, &at, nullptr);
    }
    bool find(const string& line, int from, bool here, Span& found) override {
        int n = pcre2_dfa_match(re, (PCRE2_SPTR)line.data(), line.size(), from, here ? PCRE2_ANCHORED : 0, data, nullptr, work.data(), work.size());
        if (n < 0) return false;
        PCRE2_SIZE* ends = pcre2_get_ovector_pointer(data);
        found = {int(ends[0]), int(ends[1])};
        return true;
    }
    bool split(const string& line, Span stretch, std::vector<Span>& groups) override {
        if (pcre2_match(whole, (PCRE2_SPTR)line.data(), stretch.right, stretch.left, 0, data, context) < 0) return false;
        PCRE2_SIZE* ends = pcre2_get_ovector_pointer(data);
        for (size_t k = 0; k < groups.size(); k++) groups[k] = {int(ends[2 * k + 2]), int(ends[2 * k + 3])};
        return true;
    }
};

struct Tre : Matcher {
    regex_t any, here, whole;
    explicit Tre(const Case& c) {
        tre_regcomp(&any, c.pattern.c_str(), REG_EXTENDED);
        tre_regcomp(&here, ("^(" + c.pattern + ")").c_str(), REG_EXTENDED);
        tre_regcomp(&whole, ("^(" + c.pattern + ")$").c_str(), REG_EXTENDED);
    }
    bool find(const string& line, int from, bool at, Span& found) override {
        regmatch_t m;
        if (tre_regnexec(at ? &here : &any, line.data() + from, line.size() - from, 1, &m, 0) != 0) return false;
        found = {from + int(m.rm_so), from + int(m.rm_eo)};
        return true;
    }
    bool split(const string& line, Span stretch, std::vector<Span>& groups) override {
        regmatch_t m[10];
        if (tre_regnexec(&whole, line.data() + stretch.left, stretch.right - stretch.left, groups.size() + 2, m, 0) != 0) return false;
        for (size_t k = 0; k < groups.size(); k++)
            groups[k] = m[k + 2].rm_so < 0 ? Span{} : Span{stretch.left + int(m[k + 2].rm_so), stretch.left + int(m[k + 2].rm_eo)};
        return true;
    }
};

// The longest stretch and, where they are wanted, the marks. A match from a start further right is shorter than what is left of the
// line, and marks nothing new once the line is marked to its end.
static void by_matches(Matcher& matcher, const string& line, bool here, bool longest, bool marks, Report& report) {
    int n = line.size(), length = -1, marked = 0;
    report.longest = {};
    if (marks) report.marks.assign(n, '.');
    for (int from = 0; from <= n && ((longest && n - from > length) || (marks && marked < n)); from++) {
        Span found;
        if (!matcher.find(line, from, here, found)) {
            if (here) continue;
            break;
        }
        from = found.left;
        if (found.right - found.left > length) {
            length = found.right - found.left;
            report.longest = found;
        }
        if (marks && found.right > marked) {
            int left = std::max(found.left, marked);
            std::memset(report.marks.data() + left, '#', found.right - left);
            marked = found.right;
        }
    }
}

// Hyperscan: for each end the leftmost start. It has no groups.
struct Hyperscan {
    hs_database_t* database = nullptr;
    hs_scratch_t* scratch = nullptr;
    std::vector<int> starts;
    Span longest;
    explicit Hyperscan(const Case& c) : starts(c.line.size() + 1) {
        hs_compile_error_t* error;
        unsigned flags = HS_FLAG_DOTALL | HS_FLAG_SOM_LEFTMOST | HS_FLAG_ALLOWEMPTY;
        if (hs_compile(c.pattern.c_str(), flags, HS_MODE_BLOCK, nullptr, &database, &error) == HS_SUCCESS) hs_alloc_scratch(database, &scratch);
    }
    static int take(unsigned, unsigned long long from, unsigned long long to, unsigned, void* context) {
        auto& self = *static_cast<Hyperscan*>(context);
        int left = from, right = to, length = self.longest.right - self.longest.left;
        self.starts[right] = std::min(self.starts[right], left);
        if (self.longest.left < 0 || right - left > length || (right - left == length && left < self.longest.left)) self.longest = {left, right};
        return 0;
    }
    void scan(const string& line, bool marks, Report& report) {
        int n = line.size(), low = n;
        longest = {};
        std::fill(starts.begin(), starts.end(), n);
        hs_scan(database, line.data(), n, 0, scratch, take, this);
        report.longest = longest;
        if (!marks) return;
        report.marks.resize(n);
        for (int i = n; i-- > 0;) {
            low = std::min(low, starts[i + 1]);
            report.marks[i] = low <= i ? '#' : '.';
        }
    }
};

// The three lines that `mark` prints.
struct Printer {
    char text[4096];
    char* end = text;
    void add(std::string_view s) { end = std::copy(s.begin(), s.end(), end); }
    void add(int n) { end = std::to_chars(end, text + sizeof text, n).ptr; }
    std::string_view print(const Report& report) {
        end = text;
        add("longest "), add(report.longest.left), add(" "), add(report.longest.right), add("\nmarks ");
        add({report.marks.data(), report.marks.size()});
        add("\nparts");
        for (size_t k = 0; k < report.groups.size(); k++) {
            Span part = report.groups[k];
            add(" "), add(int(k + 1)), add(":");
            if (part.left < 0 || part.left == part.right) add("none");
            else add(part.left), add("-"), add(part.right);
        }
        add("\n");
        return {text, size_t(end - text)};
    }
};

// The nanoseconds that one run takes, in the best of 40 rounds. A round that is too short does not count, and the next has twice as
// many runs.
template <class Run>
static double time_of(Run run, double least) {
    using Clock = std::chrono::steady_clock;
    double best = 1e18;
    long runs = 1;
    for (int round = 0; round < 40; round++) {
        auto start = Clock::now();
        for (long k = 0; k < runs; k++) run();
        double taken = std::chrono::duration<double, std::nano>(Clock::now() - start).count();
        if (taken < least) runs *= 2;
        else best = std::min(best, taken / runs);
    }
    return best;
}

static void print_answers(const Case& c, const char* peer, const Report& report, std::string_view text, bool splits) {
    long marked = std::count(report.marks.begin(), report.marks.end(), '#'), sum = 0;
    for (unsigned char byte : text) sum += byte;
    std::printf("%s %s %d %d %ld %s\n", c.name.c_str(), peer, report.longest.left, report.longest.right, marked, splits ? std::to_string(sum).c_str() : "-");
}

static string shown(double time) { return time < 0 ? "-" : std::to_string(std::lround(time)); }

static void print_times(const Case& c, const char* peer, double longest, double marks, double split, double order) {
    std::printf("%s %s %s %s %s %s\n", c.name.c_str(), peer, shown(longest).c_str(), shown(marks).c_str(), shown(split).c_str(), shown(order).c_str());
    std::fflush(stdout);
}

static void ask_matcher(const Case& c, const char* peer, Matcher& matcher, double least) {
    Report report;
    report.groups.resize(c.groups);
    Printer printer;
    bool splits = true;
    auto order = [&](bool here) {
        by_matches(matcher, c.line, here, true, true, report);
        splits = c.groups == 0 || matcher.split(c.line, report.longest, report.groups);
        return printer.print(report);
    };
    if (least == 0) {
        auto text = order(false);
        return print_answers(c, peer, report, text, splits);
    }
    auto better = [&](auto run) { return std::min(time_of([&] { run(false); }, least), time_of([&] { run(true); }, least)); };
    double longest = better([&](bool here) { by_matches(matcher, c.line, here, true, false, report); });
    double marks = better([&](bool here) { by_matches(matcher, c.line, here, false, true, report); });
    double whole = better(order);
    double split = c.groups == 0 || !splits ? -1 : time_of([&] { matcher.split(c.line, report.longest, report.groups); }, least);
    print_times(c, peer, longest, marks, split, splits ? whole : -1);
}

// Where there are tags, the order takes the groups from RE2.
static void ask_hyperscan(const Case& c, double least) {
    Hyperscan scanner(c);
    if (!scanner.scratch) {
        std::printf("%s Hyperscan refused\n", c.name.c_str());
        return;
    }
    Re2 re2(c);
    Report report;
    report.groups.resize(c.groups);
    Printer printer;
    auto order = [&] {
        scanner.scan(c.line, true, report);
        if (c.groups > 0) re2.split(c.line, report.longest, report.groups);
        return printer.print(report);
    };
    if (least == 0) {
        auto text = order();
        return print_answers(c, "Hyperscan", report, text, true);
    }
    double longest = time_of([&] { scanner.scan(c.line, false, report); }, least);
    double marks = time_of([&] { scanner.scan(c.line, true, report); }, least);
    print_times(c, "Hyperscan", longest, marks, -1, time_of(order, least));
}

static string times(const string& s, int n) {
    string all;
    while (n-- > 0) all += s;
    return all;
}

static string stars(int n) { return times("(", 8) + times(".*", n) + times(")", 8); }

static std::vector<Case> cases() {
    const string speaker = "([A-Z]+): (.*)", note = "\\(([^)]*)\\)|\\[([^]]*)\\]", ambiguous = "((a|ab)(b|ba)*)(a*b)*", same(160, 'a');
    const string prose = "(door slams) COUNCILLOR HUGHES: I move that the minutes of the last sitting, as circulated, be taken as read; "
                         "and that item nine stand over until the 14th. [app";
    const string speech = "HUGHES: I move that the minutes of the last sitting, as circulated, be taken as read; "
                          "and that item nine stand over until the 14th. The motion is put, and AYES:";
    const string sounds = "door|bell|song|rain|wind|horn|drum|bark|roar|howl|hiss|buzz|ring|gong|thud|bang";
    string coins;
    uint32_t state = 7;
    for (int i = 0; i < 160; i++) {
        state = state * 1103515245u + 12345u;
        coins += (state >> 16) % 3 ? 'b' : 'a';
    }
    std::vector<Case> all = {
        {"speaker21", speaker, "hm ANNA: good evening", 2},
        {"speaker160", speaker, prose, 2},
        {"note160", note, prose, 2},
        {"bstar160", "bb*", coins, 0},
        {"ambig160", ambiguous, coins, 0},
        {"opt160", times("a?", 32) + times("a", 32), same, 0},
        {"stars160", stars(52), prose, 8},
        {"untagged160", times(".*", 52), prose, 0},
    };
    auto add = [&](const string& name, int n, const string& pattern, const string& line, size_t groups) { all.push_back({name + std::to_string(n), pattern, line, groups}); };
    for (int n : {20, 40, 80, 120, 160}) add("speaker/symbols=", n, speaker, speech.substr(0, n), 2);
    for (int n : {20, 40, 80, 120, 160}) add("stars/symbols=", n, stars(52), speech.substr(0, n), 8);
    for (int n : {4, 8, 16, 32, 64}) add("sounds/tests=", n, "(" + sounds.substr(0, n / 4 * 5 - 1) + ")", prose, 1);
    for (int n : {4, 8, 16, 32, 64}) add("opt/tests=", n, times("a?", n / 2) + times("a", n / 2), same, 0);
    for (int n : {4, 8, 16, 32, 52}) add("stars/tests=", n, stars(n), speech, 8);
    return all;
}

int main(int argc, char** argv) {
    double least = argc > 1 ? std::atof(argv[1]) * 1000 : 0;
    for (const Case& c : cases()) {
        // `ambig160` has groups in the engines' notation, and no tags.
        Re2 re2(c);
        Pcre2 pcre2(c);
        Tre tre(c);
        ask_matcher(c, "RE2", re2, least);
        ask_hyperscan(c, least);
        ask_matcher(c, "PCRE2", pcre2, least);
        ask_matcher(c, "TRE", tre, least);
    }
}
