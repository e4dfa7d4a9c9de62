// Threads of C++ share a kernel behind a mutex. Each is a processor: it draws, runs its winner for a quantum, and ends
// the quantum. The kernel and the lock have one owner, which frees both.
//
// Who wins which draw depends on how the threads take turns, so what is printed are bounds.

#include "lot.h"

#include <cstdio>
#include <cstdlib>
#include <functional>
#include <mutex>
#include <stdexcept>
#include <thread>
#include <vector>

static void must(std::uint32_t status) {
    if (status != LOT_DONE) {
        throw std::runtime_error(lot_status_text(status));
    }
}

// A refused event is an exception as much as a call that has failed.
class Kernel {
public:
    explicit Kernel(const lot_sizes &sizes) {
        must(lot_kernel_new(&sizes, &kernel));
    }

    Kernel(const Kernel &) = delete;
    Kernel &operator=(const Kernel &) = delete;

    ~Kernel() {
        lot_kernel_free(&kernel);
    }

    lot_reply event(const lot_event &event) {
        const std::lock_guard<std::mutex> turn(lock);
        lot_reply reply;
        must(lot_kernel_event(&kernel, &event, &reply));
        if (lot_refused(&reply)) {
            throw std::runtime_error(lot_refusal_text(reply.reason));
        }
        return reply;
    }

    lot_thread_row thread(std::uint32_t number) {
        const std::lock_guard<std::mutex> turn(lock);
        lot_thread_row row;
        must(lot_kernel_thread_row(&kernel, number, &row));
        return row;
    }

private:
    lot_kernel kernel = LOT_KERNEL_NONE;
    std::mutex lock;
};

// Numbers of a seed of its own.
class Numbers {
public:
    explicit Numbers(std::uint32_t seed) {
        must(lot_generator_new(seed, &generator));
    }

    lot_wide next() {
        std::uint64_t number = 0;
        must(lot_generator_number(&generator, &number));
        return lot_wide_of(number);
    }

private:
    lot_generator generator = {0};
};

// More tasks than processors, so that each draw has a winner.
static const std::uint32_t PROCESSORS = 4, TASKS = 20;
static const int QUANTA = 20000; // of each processor

static void work(Kernel &kernel, std::uint32_t processor) {
    Numbers numbers(processor);
    for (int i = 0; i < QUANTA; i++) {
        kernel.event(lot_draw(processor, numbers.next()));
        std::this_thread::yield(); // the winner runs here
        kernel.event(lot_expire(processor));
    }
}

static std::uint64_t tickets_of(std::uint32_t task) {
    return task % 2 == 0 ? 200 : 100;
}

// How often tasks with 200 tickets have won, for each time that those with 100 have. A task that runs isn't in the
// draws of other processors, so it is a little less than twice.
static double ratio_of_wins(Kernel &kernel) {
    double wins[2] = {0, 0};
    for (std::uint32_t task = 1; task <= TASKS; task++) {
        wins[task % 2] += static_cast<double>(kernel.thread(task).quanta);
    }
    return wins[0] / wins[1];
}

int main() {
    lot_sizes sizes = lot_sizes_small();
    sizes.threads = TASKS;
    sizes.processors = PROCESSORS;
    Kernel kernel(sizes);
    for (std::uint32_t task = 1; task <= TASKS; task++) {
        kernel.event(lot_make_funded(tickets_of(task), lot_name_of("base"), lot_no_name(), 1));
    }
    std::vector<std::thread> processors;
    for (std::uint32_t processor = 1; processor <= PROCESSORS; processor++) {
        processors.emplace_back(work, std::ref(kernel), processor);
    }
    for (std::thread &processor : processors) {
        processor.join();
    }
    const double ratio = ratio_of_wins(kernel);
    if (ratio < 1.7 || ratio > 2.1) {
        std::printf("twice as many tickets win %.2f times as often\n", ratio);
        return EXIT_FAILURE;
    }
    std::printf("%u processors: twice as many tickets win 1.7 to 2.1 times as often\n", PROCESSORS);
    return EXIT_SUCCESS;
}
