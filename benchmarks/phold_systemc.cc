// PHOLD in SystemC: a process is a module with one SC_METHOD that is sensitive to its inbox, a tick a picosecond, the resolution. The inbox
// is the payload event queue of tlm_utils, `peq`, or a heap with an sc_event, `heap`. sc_event_queue has no payload: it would need an additional
// queue of messages, and is slower than both. Usage: phold_systemc INBOX LPS END POPULATION SPREAD SEED; without words it prints the version
#include "phold_words.h"

#include <systemc>
#include <tlm_utils/peq_with_get.h>

#include <cstring>
#include <memory>
#include <queue>

using sc_core::SC_PS;
using sc_core::sc_time;

/// Like peq_with_get, over a binary heap of waiting messages; messages of one tick come in the order in which they were put.
class HeapInbox {
    struct Waiting {
        uint64_t time;
        uint64_t number;
        Message* message;

        bool operator<(const Waiting& other) const {
            return time != other.time ? time > other.time : number > other.number;
        }
    };

    std::priority_queue<Waiting> waiting;
    uint64_t number = 0;
    sc_core::sc_event event;

public:
    explicit HeapInbox(const char* name) : event(name) {}

    void notify(Message& message, const sc_time& delay) {
        waiting.push({sc_core::sc_time_stamp().value() + delay.value(), number++, &message});
        event.notify(delay);
    }

    Message* get_next_transaction() {
        if (waiting.empty())
            return nullptr;
        const uint64_t now = sc_core::sc_time_stamp().value();
        if (waiting.top().time > now) {
            event.notify(sc_time::from_value(waiting.top().time - now));
            return nullptr;
        }
        Message* message = waiting.top().message;
        waiting.pop();
        return message;
    }

    sc_core::sc_event& get_event() {
        return event;
    }
};

template <class Inbox>
struct Process : sc_core::sc_module {
    Phold& phold;
    std::vector<std::unique_ptr<Process>>& all;
    const uint32_t lp;
    Inbox inbox{"inbox"};

    SC_HAS_PROCESS(Process);
    Process(sc_core::sc_module_name name, Phold& phold, std::vector<std::unique_ptr<Process>>& all, uint32_t lp)
        : sc_module(name), phold(phold), all(all), lp(lp) {
        SC_METHOD(handle);
        sensitive << inbox.get_event();
        dont_initialize();
    }

    void handle() {
        const uint64_t now = sc_core::sc_time_stamp().value();
        while (Message* message = inbox.get_next_transaction()) {
            const Hop hop = phold.handle(now, lp, *message);
            all[hop.to]->inbox.notify(*message, sc_time(hop.delay, SC_PS));
        }
    }
};

template <class Inbox>
static void run(Phold& phold) {
    std::vector<std::unique_ptr<Process<Inbox>>> all;
    for (uint32_t lp = 0; lp < phold.lps; lp++)
        all.push_back(std::make_unique<Process<Inbox>>(sc_core::sc_gen_unique_name("process"), phold, all, lp));
    std::vector<Message> messages(phold.lps * phold.population);
    for (uint32_t lp = 0; lp < phold.lps; lp++)
        for (uint32_t k = 0; k < phold.population; k++) {
            Message& message = messages[lp * phold.population + k];
            message = {uint64_t{lp} * phold.population + k, 0};
            all[lp]->inbox.notify(message, sc_time(phold.first_delay(lp, k), SC_PS));
        }
    // handles nothing at the end itself
    sc_core::sc_start(sc_time(phold.end, SC_PS));
    phold.print();
}

int sc_main(int argc, char** argv) {
    if (argc == 1) {
        std::printf("%s\n", sc_core::sc_release());
        return 0;
    }
    Phold phold(argc - 1, argv + 1);
    if (std::strcmp(argv[1], "peq") == 0)
        run<tlm_utils::peq_with_get<Message>>(phold);
    else
        run<HeapInbox>(phold);
    return 0;
}
