// What a planner would use instead: each list of a file posted to Gecode as a model, and of one root propagation of it, one
// line a list: `gecode times FILE` the nanoseconds (a fresh space, posting, propagation), the quickest of some; `gecode left
// FILE` what it leaves: `no plan`, or each term's low and high credits and low and high count, then each course's list.
#include <gecode/int.hh>
#include <gecode/minimodel.hh>

#include <algorithm>
#include <chrono>
#include <cstdio>
#include <memory>
#include <string>
#include <vector>

using namespace Gecode;

struct Term {
    int low, high, least, most;
};
struct Course {
    int weight, list;
};
struct Year {
    std::vector<Term> terms;
    std::vector<Course> courses;
};

// Lists for timing are well formed.
static Year read_year(const std::vector<unsigned char> &list) {
    Year year;
    for (size_t at = 0; at + 16 <= list.size(); at += 16) {
        auto number = [&](size_t k) { return list[at + k] * 256 + list[at + k + 1]; };
        if (list[at] == 'T')
            year.terms.push_back({number(2), number(4), number(6), number(8)});
        else
            year.courses.push_back({number(2), number(4)});
    }
    return year;
}

// Bin packing with loads, and a count of courses a term, with both totals: the constraints that a user would post.
class Model : public Space {
public:
    IntVarArray load, number, place;

    explicit Model(const Year &year)
        : load(*this, static_cast<int>(year.terms.size())), number(*this, static_cast<int>(year.terms.size())),
          place(*this, static_cast<int>(year.courses.size())) {
        const int terms = load.size(), courses = place.size();
        for (int j = 0; j < terms; j++) {
            const Term &term = year.terms[static_cast<size_t>(j)];
            load[j] = IntVar(*this, term.low, term.high);
            number[j] = IntVar(*this, term.least, term.most);
        }
        if (courses == 0) { // Gecode's packing is not made for no items at all
            rel(*this, load, IRT_EQ, 0);
            rel(*this, number, IRT_EQ, 0);
            return;
        }
        IntArgs weight(courses);
        int credits = 0;
        for (int i = 0; i < courses; i++) {
            const Course &course = year.courses[static_cast<size_t>(i)];
            IntArgs listed;
            for (int j = 0; j < terms; j++)
                if (course.list >> j & 1)
                    listed << j;
            place[i] = IntVar(*this, IntSet(listed));
            weight[i] = course.weight;
            credits += course.weight;
        }
        binpacking(*this, load, place, weight);
        count(*this, place, number, IPL_DOM);
        linear(*this, load, IRT_EQ, credits);
        linear(*this, number, IRT_EQ, courses);
    }

    Model(Model &other) : Space(other) {
        load.update(*this, other.load);
        number.update(*this, other.number);
        place.update(*this, other.place);
    }

    Space *copy() override { return new Model(*this); }
};

static double propagate(const Year &year) {
    using clock = std::chrono::steady_clock;
    const auto start = clock::now();
    Model *model = new Model(year);
    (void)model->status();
    const auto end = clock::now();
    delete model;
    return std::chrono::duration<double, std::nano>(end - start).count();
}

static void print_time(const Year &year) {
    double best = propagate(year);
    for (int k = 0; k < 60; k++)
        best = std::min(best, propagate(year));
    std::printf("%.0f\n", best);
}

static void print_left(const Year &year) {
    const std::unique_ptr<Model> model(new Model(year));
    if (model->status() == SS_FAILED) {
        std::printf("no plan\n");
        return;
    }
    for (int j = 0; j < model->load.size(); j++) {
        const IntVar &load = model->load[j], &number = model->number[j];
        std::printf("%d %d %d %d ", load.min(), load.max(), number.min(), number.max());
    }
    for (int i = 0; i < model->place.size(); i++) {
        int list = 0;
        for (IntVarValues term(model->place[i]); term(); ++term)
            list |= 1 << term.val();
        std::printf("%d ", list);
    }
    std::printf("\n");
}

int main(int argc, char **argv) {
    const std::string wanted = argc == 3 ? argv[1] : "";
    std::FILE *file = wanted == "times" || wanted == "left" ? std::fopen(argv[2], "rb") : nullptr;
    if (file == nullptr) {
        std::fprintf(stderr, "usage: gecode times FILE | left FILE\n");
        return 2;
    }
    int high, low;
    while ((high = std::fgetc(file)) != EOF && (low = std::fgetc(file)) != EOF) {
        std::vector<unsigned char> list(static_cast<size_t>(high * 256 + low));
        if (std::fread(list.data(), 1, list.size(), file) != list.size())
            return 1;
        (wanted == "times" ? print_time : print_left)(read_year(list));
    }
    std::fclose(file);
    return 0;
}
