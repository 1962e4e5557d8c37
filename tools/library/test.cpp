/* SPDX-License-Identifier: Apache-2.0 */
/* Tests the class of netconf.hpp: what its members return, what they throw, and that it closes itself. */
#include <netconf.hpp>

#include <cstdio>

static unsigned failures;

#define CHECK(condition) check((condition), #condition, __LINE__)

static void check(bool holds, const char *condition, int line)
{
    if (!holds) {
        std::printf("line %d: not so: %s\n", line, condition);
        failures++;
    }
}

static const char *const description = "dram is accept [0x0-0x3fffffff];\n"
                                       "unit iommu kind pages page 12 slots 4 reach 32 to dram;\n"
                                       "agent card is map [0x0-0x3fff to iommu at 0x0];\n";

/* The status that a call throws, or NETCONF_DONE where it throws none. */
template <typename Call> static std::uint32_t status_of(Call &&call)
{
    try {
        call();
    } catch (const netconf_error &error) {
        return error.status();
    }
    return NETCONF_DONE;
}

static std::string why_refused(const std::string &text)
{
    try {
        netconf_session session(text);
    } catch (const netconf_error &error) {
        return error.what();
    }
    return std::string();
}

static void test_grants()
{
    netconf_session session(description);
    const std::uint16_t card = session.node("card"), dram = session.node("dram"), unit = session.node("iommu");
    std::uint64_t words[4] = {1, 1, 1, 1};
    unsigned fences = 0;
    auto perform = [&](const netconf_event &event) {
        CHECK(event.kind == NETCONF_FENCE || event.unit == unit);
        if (event.kind == NETCONF_MAKE) words[0] = words[1] = words[2] = words[3] = 0;
        else if (event.kind == NETCONF_WRITE_WORD) words[event.word] = event.value;
        else fences++;
    };

    session.perform(perform);
    CHECK(words[0] == 0 && words[3] == 0);
    CHECK(session.name(card) == "card");
    CHECK(session.grant(1, card, dram, 0x9000, 0x2000) == 0);
    session.grant_at(0x3000, 2, card, dram, 0x4000, 0x1000, NETCONF_READ);
    CHECK(session.pending().size() == 3);
    session.perform(perform);
    CHECK(session.pending().empty() && words[0] == 0x901 && words[1] == 0xa01 && words[3] != 0);
    session.revoke(1);
    CHECK(session.grant(3, card, dram, 0x8000, 0x1000) == 0);
    session.perform(perform);
    CHECK(fences == 1 && words[0] == 0x801 && words[1] == 0);
    CHECK(status_of([&] { session.revoke(1); }) == NETCONF_NO_GRANT);
    CHECK(status_of([&] { session.node("cards"); }) == NETCONF_NO_NODE);
    CHECK(status_of([&] { session.name(7); }) == NETCONF_NO_NODE);
    CHECK(status_of([&] { session.grant(3, card, dram, 0, 0x1000); }) == NETCONF_ID_USED);
    CHECK(status_of([&] { session.grant(4, card, dram, 0x100, 0x100); }) == NETCONF_NO_PLACEMENT);
    CHECK(status_of([&] { session.grant(4, card, dram, 0, 0x1000, 0); }) == NETCONF_BAD_ARGUMENT);
    CHECK(session.handle()->held != nullptr);
}

/* What the members tell of the live grants, and of a route. */
static void test_told()
{
    netconf_session session(std::string(description)
                            + "vectors cpu is accept [0x20-0x22];\n"
                              "unit remapper kind vectors page 0 slots 4 reach 8 to cpu;\n"
                              "agent lines is map [0x0-0x3 to remapper at 0x0];\n"
                              "a is accept [0x0-0xff]; b is accept [0x0-0xff]; c is accept [0x0-0xff];\n"
                              "d is accept [0x0-0xff]; e is accept [0x0-0xff];\n"
                              "all is map [0x0-0xff to a and b and c and d and e];\n");
    const std::uint16_t card = session.node("card"), dram = session.node("dram"), cpu = session.node("cpu");

    session.grant(1, card, dram, 0x9000, 0x2000, NETCONF_READ);
    CHECK(session.resolve(card, 0x1004, NETCONF_FOR_WRITE).empty());
    const std::vector<netconf_place> places = session.resolve(card, 0x1004, NETCONF_FOR_READ);
    CHECK(places.size() == 1 && places[0].node == dram && places[0].address == 0xa004);
    const std::vector<netconf_row> rows = session.view(card, NETCONF_FOR_READ);
    CHECK(rows.size() == 1 && rows[0].first == 0 && rows[0].last == 0x1fff && rows[0].place.address == 0x9000);
    CHECK(session.view(card, NETCONF_FOR_WRITE).empty());
    CHECK(session.route(2, session.node("lines"), 3, cpu) == 0x20);
    CHECK(session.resolve(session.node("lines"), 3, NETCONF_FOR_WRITE).size() == 1);
    const std::vector<std::uint8_t> image = session.image();
    CHECK(image.size() == 8 + 8 + 4 * 8 + 8 + 4 * 16 && image[0] == 'D' && image[16] == 0x21);
    CHECK(session.lookup(image, card, 0x1004, NETCONF_FOR_READ)[0].address == 0xa004);
    CHECK(session.lookup(image, session.node("lines"), 3, NETCONF_FOR_READ)[0].address == 0x20);
    CHECK(session.audit(image).find("view card for read rows 1\n0x0-0x1fff dram@0x9000\n") != std::string::npos);
    CHECK(status_of([&] { session.audit(std::vector<std::uint8_t>(7)); }) == NETCONF_IMAGE_HEADER);
    CHECK(status_of([&] { session.lookup(image, dram, 0, NETCONF_FOR_READ); }) == NETCONF_NO_AGENT);
    CHECK(session.gather(card, {{3, dram, 0, 0x20000, 0x1000}, {4, dram, 0, 0x10000, 0x1000}}) == 0x2000);
    CHECK(session.resolve(card, 0x3000, NETCONF_FOR_WRITE)[0].address == 0x10000);
    CHECK(status_of([&] { session.gather(card, {}); }) == NETCONF_BAD_ARGUMENT);
    CHECK(session.resolve(session.node("all"), 7, NETCONF_FOR_READ).size() == 5);
    CHECK(session.view(session.node("all"), NETCONF_FOR_READ).size() == 5);
    CHECK(status_of([&] { session.view(99, NETCONF_FOR_READ); }) == NETCONF_NO_NODE);
    CHECK(status_of([&] { session.resolve(card, 0, 3); }) == NETCONF_BAD_ARGUMENT);
}

/* An event that is not performed leaves all events pending. */
static void test_thrown()
{
    netconf_session session(description);
    const std::uint16_t card = session.node("card"), dram = session.node("dram");
    unsigned performed = 0;

    session.settle();
    session.grant(1, card, dram, 0x9000, 0x2000);
    try {
        session.perform([&](const netconf_event &) {
            if (performed++ == 1) throw std::runtime_error("the unit does not answer");
        });
        CHECK(false);
    } catch (const std::runtime_error &) {
        CHECK(performed == 2 && session.pending().size() == 2);
    }
}

static void test_moved()
{
    netconf_session first(description);
    const std::uint16_t card = first.node("card"), dram = first.node("dram");
    netconf_session second(std::move(first));

    CHECK(second.grant(1, card, dram, 0x9000, 0x1000) == 0);
    CHECK(status_of([&] { first.revoke(1); }) == NETCONF_CLOSED);
    first = std::move(second);
    first.revoke(1);
    std::vector<netconf_session> sessions;
    sessions.push_back(std::move(first));
    CHECK(sessions.back().grant(2, card, dram, 0x9000, 0x1000) == 0);
}

static void test_refused()
{
    const std::string name(600, 'a');

    CHECK(why_refused("a is") == "refused: line 1 Statement");
    CHECK(why_refused(name + " is over " + name + ";").find(name) != std::string::npos);
    CHECK(why_refused(description).empty());
}

int main()
{
    test_grants();
    test_told();
    test_thrown();
    test_moved();
    test_refused();
    std::printf("%s\n", failures ? "FAILED" : "passed");
    return failures != 0;
}
