// The generated graph of `flow generate N`, over oneTBB's flow graph with plain std::string operations: a peer to measure
// beside. It prints the same six lines. Build: g++ -O2 -std=c++17 generate_tbb.cpp -ltbb. Use: generate_tbb N WORKERS
//
// It copies texts where the program shares them: what is read, what is cut, and the text of the loop. It keeps one value a
// task, and neither a journal nor the values of the loop's earlier rounds; it has no limit of starts, and the order of
// the tokens that wait is written in. It has one node more, which hands the text into the loop.
#include <algorithm>
#include <atomic>
#include <cstdint>
#include <cstdio>
#include <cstdlib>
#include <functional>
#include <map>
#include <memory>
#include <string>
#include <string_view>
#include <tbb/flow_graph.h>
#include <tbb/global_control.h>
#include <tbb/parallel_pipeline.h>
#include <vector>

using Lines = std::vector<std::string_view>;

static Lines lines_of(const std::string &text) {
    Lines lines;
    for (size_t at = 0; at < text.size();) {
        size_t end = text.find('\n', at);
        lines.emplace_back(text.data() + at, end - at);
        at = end + 1;
    }
    return lines;
}

static std::string joined(const Lines &lines) {
    size_t length = lines.size();
    for (auto line : lines) length += line.size();
    std::string text;
    text.reserve(length);
    for (auto line : lines) text.append(line).push_back('\n');
    return text;
}

// Where the first n lines end.
static size_t end_of(const std::string &text, size_t n) {
    size_t at = 0;
    for (; n > 0 && at < text.size(); --n) at = text.find('\n', at) + 1;
    return at;
}

static std::string head(const std::string &text, size_t n) { return text.substr(0, end_of(text, n)); }

static std::string skip(const std::string &text, size_t n) { return text.substr(end_of(text, n)); }

static std::string tail(const std::string &text, size_t n) {
    size_t at = text.size();
    for (; n > 0 && at > 0; --n) at = at < 2 ? 0 : text.rfind('\n', at - 2) + 1;
    return text.substr(at);
}

static size_t count_lines(const std::string &text) { return std::count(text.begin(), text.end(), '\n'); }

static std::string sort(const std::string &text) {
    Lines lines = lines_of(text);
    std::stable_sort(lines.begin(), lines.end());
    return joined(lines);
}

static std::string uniq(const std::string &text) {
    Lines lines = lines_of(text);
    lines.erase(std::unique(lines.begin(), lines.end()), lines.end());
    return joined(lines);
}

static std::string keep(const std::string &text, std::string_view word) {
    Lines lines = lines_of(text);
    lines.erase(std::remove_if(lines.begin(), lines.end(), [&](auto line) { return line.find(word) == line.npos; }), lines.end());
    return joined(lines);
}

static std::string tally(const std::string &text) {
    std::map<std::string_view, size_t> counts;
    for (auto line : lines_of(text)) ++counts[line];
    std::string made;
    for (auto &[line, count] : counts) made.append(std::to_string(count)).append(" ").append(line).push_back('\n');
    return made;
}

using Work = std::function<std::string(const std::string &)>;
using Node = tbb::flow::continue_node<tbb::flow::continue_msg>;

// A task: its predecessors, its work, and the value that it ended with.
struct Task {
    std::vector<Task *> before;
    Work work;
    std::string value;
    std::unique_ptr<Node> node;

    void run() {
        if (before.size() == 1) {
            value = work(before[0]->value);
            return;
        }
        size_t length = 0;
        for (Task *task : before) length += task->value.size();
        std::string text;
        text.reserve(length);
        for (Task *task : before) text += task->value;
        value = work(text);
    }
};

static std::atomic<uint64_t> starts{0}, inner_starts{0};

static std::string piped(const std::string &text) {
    Lines lines = lines_of(text);
    // Token 1 waits for token 3, and token 2 for token 1.
    std::vector<size_t> order;
    for (size_t k = 0; k < lines.size(); ++k) {
        if (k == 1 || k == 2) continue;
        order.push_back(k);
        if (k == 3) order.insert(order.end(), {1, 2});
    }
    std::string made;
    size_t next = 0, place = 0;
    struct Part { std::string text; };
    tbb::parallel_pipeline(4,
        tbb::make_filter<void, Part *>(tbb::filter_mode::serial_in_order, [&](tbb::flow_control &control) -> Part * {
            ++inner_starts;
            if (next == order.size()) { control.stop(); return nullptr; }
            return new Part{std::string(lines[order[next++]]) + "\n"};
        }) & tbb::make_filter<Part *, Part *>(tbb::filter_mode::parallel, [](Part *part) {
            ++inner_starts;
            part->text = keep(part->text, "w");
            return part;
        }) & tbb::make_filter<Part *, void>(tbb::filter_mode::serial_in_order, [&](Part *part) {
            ++inner_starts;
            for (auto line : lines_of(part->text)) made.append(std::to_string(place)).append(" ").append(line).push_back('\n');
            ++place;
            delete part;
        }));
    return made;
}

int main(int count, char **words) {
    if (count != 3) return 2;
    size_t layers = std::atoi(words[1]), workers = std::atoi(words[2]);
    tbb::global_control limit(tbb::global_control::max_allowed_parallelism, workers);
    uint64_t state = layers;
    auto draw = [&] { return (state = state * 6364136223846793005u + 1442695040888963407u) >> 33; };
    std::string text;
    for (size_t i = 0; i < 200; ++i) text += "w" + std::to_string(draw() % 50) + " " + std::to_string(i) + "\n";

    tbb::flow::graph graph;
    std::vector<std::unique_ptr<Task>> tasks;
    auto add = [&](std::vector<Task *> before, Work work) {
        tasks.push_back(std::make_unique<Task>(Task{std::move(before), std::move(work), {}, nullptr}));
        Task *task = tasks.back().get();
        task->node = std::make_unique<Node>(graph, 0, [task](const tbb::flow::continue_msg &message) {
            ++starts;
            task->run();
            return message;
        });
        for (Task *one : task->before) tbb::flow::make_edge(*one->node, *task->node);
        return task;
    };
    Work read = [&](const std::string &) { return text; };
    std::vector<Task *> sources;
    for (size_t k = 0; k < 10; ++k) sources.push_back(add({}, read));
    std::vector<Task *> layer = sources;
    for (size_t j = 1; j < layers; ++j) {
        std::vector<Task *> next;
        for (size_t k = 0; k < 10; ++k) {
            uint64_t d = draw(), e = draw();
            Work work;
            if (j % 2 == 1) work = d % 2 == 0 ? Work([](auto &t) { return head(t, 100); }) : Work([](auto &t) { return tail(t, 100); });
            else work = d % 3 == 0 ? Work(sort) : d % 3 == 1 ? Work(uniq) : Work([](auto &t) { return keep(t, "1"); });
            size_t other = (k + 1 + e % 9) % 10;
            next.push_back(add({layer[std::min(k, other)], layer[std::max(k, other)]}, work));
        }
        layer = next;
    }
    Task *sum = add(layer, tally);
    Task *first = add({}, read);
    std::string done;
    // The loop: body, more, and back, as two nodes that hand a text to each other.
    tbb::flow::function_node<std::string> finish(graph, tbb::flow::serial, [&](const std::string &t) { ++starts; done = t; });
    tbb::flow::multifunction_node<std::string, std::tuple<std::string, std::string>> more(graph, tbb::flow::serial, [](const std::string &t, auto &ports) {
        ++starts;
        if (count_lines(t) > 10) std::get<0>(ports).try_put(t);
        else std::get<1>(ports).try_put(t);
    });
    tbb::flow::function_node<std::string, std::string> body(graph, tbb::flow::serial, [](const std::string &t) { ++starts; return skip(t, 1); });
    tbb::flow::function_node<tbb::flow::continue_msg, std::string> enter(graph, tbb::flow::serial, [first](const tbb::flow::continue_msg &) { return first->value; });
    tbb::flow::make_edge(*first->node, enter);
    tbb::flow::make_edge(enter, body);
    tbb::flow::make_edge(body, more);
    tbb::flow::make_edge(tbb::flow::output_port<0>(more), body);
    tbb::flow::make_edge(tbb::flow::output_port<1>(more), finish);
    Task *parts = add({}, read);
    Task *pipe = add({parts}, piped);

    for (Task *task : sources) task->node->try_put(tbb::flow::continue_msg());
    first->node->try_put(tbb::flow::continue_msg());
    parts->node->try_put(tbb::flow::continue_msg());
    graph.wait_for_all();
    std::printf("tasks %zu\nstarts %llu\ninner starts %llu\nsum lines %zu\ndone lines %zu\npipe lines %zu\n", 10 * layers + 7,
        (unsigned long long)starts, (unsigned long long)inner_starts, count_lines(sum->value), count_lines(done), count_lines(pipe->value));
}
