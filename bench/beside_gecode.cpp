/*
 * The proved planner beside Gecode, in one run: families of sheets from seeds, each planned by both, with medians and
 * their ratio. Nothing here is part of the gate.
 *
 * Gecode gets an nvalues constraint for each end of a rule's count window, branches on the lots in their order and on
 * the smallest day first, with one thread: so its first solution is the earliest plan. Both must give the same plan,
 * or both none; a sheet on which Gecode does not come to an end within a second counts as that second, and is told.
 */
#include <gecode/int.hh>
#include <gecode/search.hh>

#include <algorithm>
#include <chrono>
#include <cstdint>
#include <cstdio>
#include <cstdlib>
#include <functional>
#include <string>
#include <vector>

extern "C" uint32_t bench_plan(uint32_t *words, size_t words_length, const uint32_t *rules, size_t rules_length,
                               uint32_t *answer, size_t answer_length, uint32_t *work, size_t work_length);

namespace {

struct Window {
    uint32_t low, high;
};

struct Rule {
    uint32_t first, length, floor, ceiling;
};

struct Sheet {
    std::vector<Window> windows;
    std::vector<Rule> rules;
};

using Plan = std::vector<uint32_t>;

constexpr double LIMIT_MS = 1000;
constexpr int SHEETS = 15, ROUNDS = 5;

/* The generator splitmix64. */
class Draw {
public:
    explicit Draw(uint64_t seed) : state(seed) {}
    uint32_t below(uint32_t n)
    {
        uint64_t z = (state += 0x9e3779b97f4a7c15u);
        z = (z ^ (z >> 30)) * 0xbf58476d1ce4e5b9u;
        z = (z ^ (z >> 27)) * 0x94d049bb133111ebu;
        return uint32_t((z ^ (z >> 31)) % n);
    }

private:
    uint64_t state;
};

double now_ms()
{
    return std::chrono::duration<double, std::milli>(std::chrono::steady_clock::now().time_since_epoch()).count();
}

double median(std::vector<double> times)
{
    std::sort(times.begin(), times.end());
    return times[times.size() / 2];
}

/* The fewest different days of a stretch: a point at the end of each window that has none yet, by last days. */
uint32_t fewest(const Sheet &sheet, uint32_t first, uint32_t length)
{
    std::vector<Window> windows(sheet.windows.begin() + first, sheet.windows.begin() + first + length);
    std::sort(windows.begin(), windows.end(), [](Window a, Window b) { return a.high < b.high; });
    uint32_t count = 0;
    int64_t point = -1;
    for (const Window &w : windows)
        if (int64_t(w.low) > point) {
            point = w.high;
            count++;
        }
    return count;
}

/* The most: by last days, each lot takes the first free day of its window. */
uint32_t most(const Sheet &sheet, uint32_t first, uint32_t length)
{
    std::vector<Window> windows(sheet.windows.begin() + first, sheet.windows.begin() + first + length);
    std::sort(windows.begin(), windows.end(), [](Window a, Window b) { return a.high < b.high; });
    std::vector<bool> taken(10000);
    uint32_t count = 0;
    for (const Window &w : windows)
        for (uint32_t day = w.low; day <= w.high; day++)
            if (!taken[day]) {
                taken[day] = true;
                count++;
                break;
            }
    return count;
}

Sheet scatter(Draw &draw, uint32_t lots, uint32_t width, uint32_t season)
{
    Sheet sheet;
    for (uint32_t i = 0; i < lots; i++) {
        uint32_t low = draw.below(season);
        sheet.windows.push_back({low, low + draw.below(width)});
    }
    return sheet;
}

/* The planner: 0 and a plan, or the number of its refusal. */
uint32_t planned(const Sheet &sheet, Plan &plan, double &ms)
{
    static uint32_t work[4096];
    std::vector<double> times;
    uint32_t said = 0;
    plan.assign(sheet.windows.size(), 0);
    for (int round = 0; round < ROUNDS; round++) {
        std::vector<uint32_t> words, rules;
        for (const Window &w : sheet.windows) {
            words.push_back(w.low);
            words.push_back(w.high);
        }
        for (const Rule &r : sheet.rules)
            rules.insert(rules.end(), {r.first, r.length, r.floor, r.ceiling});
        double start = now_ms();
        said = bench_plan(words.data(), words.size(), rules.data(), rules.size(), plan.data(), plan.size(), work,
                          4096);
        times.push_back(now_ms() - start);
        if (times.back() > LIMIT_MS)
            break;
    }
    ms = median(times);
    return said;
}

class Model : public Gecode::Space {
public:
    explicit Model(const Sheet &sheet) : days(*this, int(sheet.windows.size()))
    {
        for (size_t i = 0; i < sheet.windows.size(); i++)
            days[int(i)] = Gecode::IntVar(*this, int(sheet.windows[i].low), int(sheet.windows[i].high));
        for (const Rule &r : sheet.rules) {
            Gecode::IntVarArgs stretch = days.slice(int(r.first), 1, int(r.length));
            if (r.ceiling < r.length)
                Gecode::nvalues(*this, stretch, Gecode::IRT_LQ, int(r.ceiling));
            if (r.floor > 1)
                Gecode::nvalues(*this, stretch, Gecode::IRT_GQ, int(r.floor));
        }
        Gecode::branch(*this, days, Gecode::INT_VAR_NONE(), Gecode::INT_VAL_MIN());
    }
    Model(Model &other) : Gecode::Space(other) { days.update(*this, other.days); }
    Gecode::Space *copy() override { return new Model(*this); }
    Gecode::IntVarArray days;
};

enum class Found { plan, none, late };

Found by_gecode(const Sheet &sheet, Plan &plan, double &ms)
{
    std::vector<double> times;
    Found found = Found::late;
    for (int round = 0; round < ROUNDS; round++) {
        Gecode::Search::TimeStop stop{unsigned(LIMIT_MS)};
        Gecode::Search::Options options;
        options.stop = &stop;
        options.threads = 1;
        double start = now_ms();
        Model *model = new Model(sheet);
        Gecode::DFS<Model> search(model, options);
        delete model;
        Model *solution = search.next();
        times.push_back(now_ms() - start);
        found = solution ? Found::plan : search.stopped() ? Found::late : Found::none;
        if (solution) {
            plan.clear();
            for (int i = 0; i < solution->days.size(); i++)
                plan.push_back(uint32_t(solution->days[i].val()));
        }
        delete solution;
        if (found == Found::late)
            break;
    }
    ms = found == Found::late ? LIMIT_MS : median(times);
    return found;
}

bool all_agree = true;

void family(const std::string &name, uint64_t seed, const std::function<Sheet(Draw &)> &make)
{
    std::vector<double> ours, theirs;
    int plans = 0, late = 0;
    double slowest = 0;
    for (int i = 0; i < SHEETS; i++) {
        Draw draw(seed * 1000 + uint64_t(i));
        Sheet sheet = make(draw);
        Plan mine, other;
        double my_ms, other_ms;
        uint32_t said = planned(sheet, mine, my_ms);
        Found found = by_gecode(sheet, other, other_ms);
        bool same = found == Found::late || (found == Found::plan ? said == 0 && mine == other : said == 26);
        if (!same) {
            std::printf("%s, sheet %d: the two differ\n", name.c_str(), i);
            all_agree = false;
        }
        ours.push_back(my_ms);
        theirs.push_back(other_ms);
        plans += said == 0;
        late += found == Found::late;
        slowest = std::max(slowest, my_ms);
    }
    std::printf("| %-58s | %2d of %d | %9.4f | %9.4f | %6.2f | %9.3f | %2d |\n", name.c_str(), plans, SHEETS,
                median(ours), median(theirs), median(ours) / median(theirs), slowest, late);
    std::fflush(stdout);
}

void groups(Sheet &sheet, const std::function<Rule(uint32_t)> &rule)
{
    for (uint32_t g = 0; g < 32; g++)
        sheet.rules.push_back(rule(8 * g));
}

Sheet groups_with_ceilings(Draw &draw, uint32_t width, uint32_t season, uint32_t above)
{
    Sheet sheet = scatter(draw, 256, width, season);
    groups(sheet, [&](uint32_t first) { return Rule{first, 8, 0, fewest(sheet, first, 8) + above}; });
    return sheet;
}

Sheet overlapping(Draw &draw, uint32_t loose)
{
    Sheet sheet = scatter(draw, 256, 30, 100);
    for (int i = 0; i < 32; i++) {
        uint32_t length = 8 + draw.below(33), first = draw.below(256 - length + 1);
        sheet.rules.push_back({first, length, 0, fewest(sheet, first, length) + loose});
    }
    return sheet;
}

/* Small groups of six lots, each with three overlapping rules that want few days here and many there. */
Sheet mixed(Draw &draw, uint32_t lots, uint32_t slack)
{
    Sheet sheet = scatter(draw, lots, 6, 8);
    for (uint32_t first = 0; first + 12 <= lots && sheet.rules.size() + 3 <= 32; first += 12) {
        uint32_t few = fewest(sheet, first, 8) + draw.below(slack), many = most(sheet, first + 4, 8);
        sheet.rules.push_back({first, 8, 0, few});
        sheet.rules.push_back({first + 4, 8, many - std::min(many - 1, draw.below(slack)), 256});
        sheet.rules.push_back({first + 2, 8, 0, fewest(sheet, first + 2, 8) + draw.below(2)});
    }
    return sheet;
}

/* The same shape with a plan: days are drawn first, and every rule holds for them, one in two with no room left. */
Sheet mixed_with_a_plan(Draw &draw, uint32_t lots)
{
    Sheet sheet = scatter(draw, lots, 6, 8);
    std::vector<uint32_t> days;
    for (const Window &w : sheet.windows)
        days.push_back(w.low + draw.below(w.high - w.low + 1));
    for (uint32_t first = 0; first + 12 <= lots && sheet.rules.size() + 3 <= 32; first += 12)
        for (uint32_t i = 0; i < 3; i++) {
            std::vector<uint32_t> stretch(days.begin() + first + 2 * i, days.begin() + first + 2 * i + 8);
            std::sort(stretch.begin(), stretch.end());
            uint32_t count = uint32_t(std::unique(stretch.begin(), stretch.end()) - stretch.begin());
            uint32_t slack = draw.below(2);
            if (i == 1)
                sheet.rules.push_back({first + 2 * i, 8, count - std::min(count - 1, slack), 256});
            else
                sheet.rules.push_back({first + 2 * i, 8, 0, count + slack});
        }
    return sheet;
}

/* Every rule is firm, and yet three lots on two days want three different ones of each pair but the first and last. */
Sheet after_search(Draw &draw, uint32_t width)
{
    Sheet sheet = scatter(draw, 256, 30, 300);
    for (uint32_t g = 0; g < 10; g++) {
        uint32_t low = draw.below(1000);
        for (uint32_t i = 0; i < 3; i++)
            sheet.windows[24 * g + i] = {low, low + width};
        sheet.rules.push_back({24 * g, 2, 1, 1});
        sheet.rules.push_back({24 * g + 1, 2, 1, 1});
        sheet.rules.push_back({24 * g, 3, g == 9 ? 2u : 1u, 3});
    }
    return sheet;
}

/* Stretches of many lengths that overlap, each with a ceiling at the fewest or up to two above, or a floor at the most
   or up to two below: most have no plan, and many show it only after search. */
Sheet near_limits(Draw &draw)
{
    uint32_t lots = 20 + draw.below(60), width = 3 + draw.below(12), season = 6 + draw.below(40);
    Sheet sheet = scatter(draw, lots, width, season);
    uint32_t rules = 3 + draw.below(10);
    for (uint32_t i = 0; i < rules; i++) {
        uint32_t length = 4 + draw.below(std::min(lots - 4, 20u)), first = draw.below(lots - length + 1);
        uint32_t few = fewest(sheet, first, length), many = most(sheet, first, length);
        if (draw.below(2))
            sheet.rules.push_back({first, length, 0, few + draw.below(3)});
        else
            sheet.rules.push_back({first, length, many - std::min(many - 1, draw.below(3)), 256});
    }
    return sheet;
}

}

int main()
{
    std::printf("| family | planned | planner, ms | Gecode, ms | ratio | slowest, ms | late |\n");
    std::printf("|---|---|---|---|---|---|---|\n");
    family("32 groups of 8, ceilings at the fewest", 1, [](Draw &d) { return groups_with_ceilings(d, 30, 300, 0); });
    family("32 groups of 8, ceilings one above the fewest", 2,
           [](Draw &d) { return groups_with_ceilings(d, 30, 300, 1); });
    family("32 groups of 8 on few days, floors at the most", 3, [](Draw &d) {
        Sheet sheet = scatter(d, 256, 6, 6);
        groups(sheet, [&](uint32_t first) { return Rule{first, 8, most(sheet, first, 8), 256}; });
        return sheet;
    });
    family("32 overlapping stretches of 8 to 40, ceilings at the fewest", 4,
           [](Draw &d) { return overlapping(d, 0); });
    family("32 overlapping stretches of 8 to 40, ceilings two above", 5, [](Draw &d) { return overlapping(d, 2); });
    family("floors and ceilings mixed, 24 lots", 6, [](Draw &d) { return mixed(d, 24, 3); });
    family("floors and ceilings mixed, 132 lots", 7, [](Draw &d) { return mixed(d, 132, 3); });
    family("floors and ceilings mixed, 132 lots, with a plan", 16, [](Draw &d) { return mixed_with_a_plan(d, 132); });
    family("impossible only after search, windows of 10 days", 8, [](Draw &d) { return after_search(d, 9); });
    family("impossible only after search, windows of 1,000 days", 9, [](Draw &d) { return after_search(d, 999); });
    family("stretches of many kinds, ends near their limits", 777, near_limits);
    family("one rule over 256 lots, ceiling at the fewest", 10, [](Draw &d) {
        Sheet sheet = scatter(d, 256, 30, 300);
        sheet.rules.push_back({0, 256, 0, fewest(sheet, 0, 256)});
        return sheet;
    });
    family("one rule over 256 lots, floor at the most", 11, [](Draw &d) {
        Sheet sheet = scatter(d, 256, 30, 200);
        sheet.rules.push_back({0, 256, most(sheet, 0, 256), 256});
        return sheet;
    });
    family("windows of up to 2,000 days, ceilings at the fewest", 12,
           [](Draw &d) { return groups_with_ceilings(d, 2000, 7000, 0); });
    family("windows of up to 2,000 days, floors at the most", 13, [](Draw &d) {
        Sheet sheet = scatter(d, 256, 2000, 7000);
        groups(sheet, [&](uint32_t first) { return Rule{first, 8, most(sheet, first, 8), 256}; });
        return sheet;
    });
    family("one lot and no rule", 14, [](Draw &d) { return scatter(d, 1, 30, 300); });
    family("five lots and one rule", 15, [](Draw &d) {
        Sheet sheet = scatter(d, 5, 6, 10);
        sheet.rules.push_back({0, 5, 0, fewest(sheet, 0, 5)});
        return sheet;
    });
    if (!all_agree)
        return 1;
    std::printf("\nThe two agree on every sheet that Gecode came to an end with.\n");
    return 0;
}
