// PHOLD in ns-3: an event is a call of Simulator::Schedule, a tick a nanosecond. SCHEDULER is map, the default of ns-3, or
// heap, calendar or priority-queue. Usage: phold_ns3 SCHEDULER LPS END POPULATION SPREAD SEED; without words it prints the version
#include "phold_words.h"

#include <ns3/core-module.h>
#if __has_include(<ns3/version.h>)
#include <ns3/version.h>
#endif

#include <map>
#include <string>

using ns3::NanoSeconds;
using ns3::Simulator;

static Phold* phold;

static void Handle(uint32_t lp, Message message) {
    const Hop hop = phold->handle(Simulator::Now().GetNanoSeconds(), lp, message);
    Simulator::Schedule(NanoSeconds(hop.delay), &Handle, hop.to, message);
}

int main(int argc, char** argv) {
    if (argc == 1) {
#if __has_include(<ns3/version.h>)
        std::printf("%u.%u (%s)\n", ns3::Version::Major(), ns3::Version::Minor(), ns3::Version::BuildProfile().c_str());
#else
        std::printf("of an unknown version\n");
#endif
        return 0;
    }
    const std::map<std::string, std::string> names = {{"map", "ns3::MapScheduler"},
                                                      {"heap", "ns3::HeapScheduler"},
                                                      {"calendar", "ns3::CalendarScheduler"},
                                                      {"priority-queue", "ns3::PriorityQueueScheduler"}};
    ns3::ObjectFactory scheduler;
    scheduler.SetTypeId(names.at(argv[1]));
    Simulator::SetScheduler(scheduler);
    phold = new Phold(argc - 1, argv + 1);
    // first, so that it comes before the events of its tick
    Simulator::Stop(NanoSeconds(phold->end));
    for (uint32_t lp = 0; lp < phold->lps; lp++)
        for (uint32_t k = 0; k < phold->population; k++)
            Simulator::Schedule(NanoSeconds(phold->first_delay(lp, k)), &Handle, lp,
                                Message{uint64_t{lp} * phold->population + k, 0});
    Simulator::Run();
    Simulator::Destroy();
    phold->print();
}
