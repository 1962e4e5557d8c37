/* SPDX-License-Identifier: Apache-2.0 */
/*
 * netconf.h for C++11 and later: a session that closes itself, and statuses as exceptions where they are wanted. The header
 * needs no library besides. docs/library.md states what the calls promise.
 */
#ifndef NETCONF_HPP
#define NETCONF_HPP

#include <netconf.h>

#include <cstddef>
#include <cstdint>
#include <stdexcept>
#include <string>
#include <utility>
#include <vector>

/* What a call answered, where it is not NETCONF_DONE. `what` has it in words. */
class netconf_error : public std::runtime_error
{
  public:
    explicit netconf_error(std::uint32_t status, const std::string &why = std::string())
        : std::runtime_error(why.empty() ? netconf_status_text(status) : why), status_(status)
    {
    }

    /* One of enum netconf_status. */
    std::uint32_t status() const noexcept { return status_; }

  private:
    std::uint32_t status_;
};

/*
 * A session of an open description. It moves and is not copied; it closes when it ends. Each member throws netconf_error at each
 * status but NETCONF_DONE, and std::bad_alloc where the list that it returns has no memory: then the session is as it was.
 */
class netconf_session
{
  public:
    /* Opens a description. Of a text that is refused, netconf_error has the line of the refusal. */
    explicit netconf_session(const std::string &text)
    {
        std::uint8_t line[512];
        std::size_t written = 0;
        const std::uint32_t status = netconf_open(&held_, reinterpret_cast<const std::uint8_t *>(text.data()),
                                                  text.size(), line, sizeof line, &written);
        if (status == NETCONF_TOO_SMALL) throw netconf_error(NETCONF_REFUSED, refusal(text, written));
        if (status == NETCONF_REFUSED) throw netconf_error(status, std::string(line, line + written));
        check(status);
    }

    netconf_session(netconf_session &&other) noexcept : held_(other.held_) { other.held_.held = nullptr; }

    netconf_session &operator=(netconf_session &&other) noexcept
    {
        std::swap(held_, other.held_);
        return *this;
    }

    netconf_session(const netconf_session &) = delete;
    netconf_session &operator=(const netconf_session &) = delete;
    ~netconf_session() { netconf_close(&held_); }

    /* The number of the node of a full name. */
    std::uint16_t node(const std::string &name)
    {
        std::uint16_t number = 0;
        check(netconf_node(&held_, reinterpret_cast<const std::uint8_t *>(name.data()), name.size(), &number));
        return number;
    }

    /* The full name of a node. */
    std::string name(std::uint16_t node)
    {
        std::size_t size = 0;
        const std::uint32_t status = netconf_name(&held_, node, nullptr, 0, &size);
        if (status != NETCONF_TOO_SMALL) check(status);
        std::vector<std::uint8_t> bytes(size);
        check(netconf_name(&held_, node, bytes.data(), bytes.size(), &size));
        return std::string(bytes.begin(), bytes.end());
    }

    /* Grants a buffer, and returns the agent's address of it. */
    std::uint64_t grant(std::uint32_t id, std::uint16_t agent, std::uint16_t node, std::uint64_t base,
                        std::uint64_t size, std::uint8_t rights = NETCONF_READ_WRITE)
    {
        std::uint64_t address = 0;
        check(netconf_grant(&held_, id, agent, node, base, size, rights, &address));
        return address;
    }

    /* Grants a buffer at an address of the agent. */
    void grant_at(std::uint64_t at, std::uint32_t id, std::uint16_t agent, std::uint16_t node, std::uint64_t base,
                  std::uint64_t size, std::uint8_t rights = NETCONF_READ_WRITE)
    {
        std::uint64_t address = 0;
        check(netconf_grant_at(&held_, id, agent, node, base, size, rights, at, &address));
    }

    /* Grants a buffer in pieces, and returns the agent's address of the first. */
    std::uint64_t gather(std::uint16_t agent, const std::vector<netconf_piece> &pieces,
                         std::uint8_t rights = NETCONF_READ_WRITE)
    {
        std::uint64_t address = 0;
        std::uint32_t piece = 0;
        check(netconf_gather(&held_, agent, pieces.data(), pieces.size(), rights, &address, &piece));
        return address;
    }

    /* Routes a line of an agent to a vector of a node, and returns the vector. */
    std::uint64_t route(std::uint32_t id, std::uint16_t agent, std::uint64_t line, std::uint16_t node)
    {
        std::uint64_t vector = 0;
        check(netconf_route(&held_, id, agent, line, node, &vector));
        return vector;
    }

    /* Takes a grant or a route out. */
    void revoke(std::uint32_t id) { check(netconf_revoke(&held_, id)); }

    /* The places to which an address of a node leads, for one of enum netconf_access. */
    std::vector<netconf_place> resolve(std::uint16_t node, std::uint64_t address, std::uint8_t access)
    {
        std::vector<netconf_place> places(4);
        std::size_t count = 0;
        check(netconf_resolve(&held_, node, address, access, places.data(), places.size(), &count));
        if (count > places.size()) {
            places.resize(count);
            check(netconf_resolve(&held_, node, address, access, places.data(), places.size(), &count));
        }
        places.resize(count);
        return places;
    }

    /* The rows of what a node sees, for one of enum netconf_access. */
    std::vector<netconf_row> view(std::uint16_t node, std::uint8_t access)
    {
        std::vector<netconf_row> rows;
        std::size_t count = 0;
        check(netconf_view(&held_, node, access, 0, nullptr, 0, &count));
        rows.resize(count);
        check(netconf_view(&held_, node, access, 0, rows.data(), rows.size(), &count));
        return rows;
    }

    /* The image of the tables. */
    std::vector<std::uint8_t> image()
    {
        std::vector<std::uint8_t> bytes;
        std::size_t size = 0;
        const std::uint32_t status = netconf_image(&held_, nullptr, 0, &size);
        if (status != NETCONF_TOO_SMALL) check(status);
        bytes.resize(size);
        check(netconf_image(&held_, bytes.data(), bytes.size(), &size));
        return bytes;
    }

    /* The places to which an address of an agent leads under an image. */
    std::vector<netconf_place> lookup(const std::vector<std::uint8_t> &image, std::uint16_t agent,
                                      std::uint64_t address, std::uint8_t access)
    {
        std::vector<netconf_place> places(4);
        std::size_t count = 0;
        std::uint64_t at = 0;
        check(netconf_lookup(&held_, image.data(), image.size(), agent, address, access, places.data(), places.size(),
                             &count, &at));
        if (count > places.size()) {
            places.resize(count);
            check(netconf_lookup(&held_, image.data(), image.size(), agent, address, access, places.data(),
                                 places.size(), &count, &at));
        }
        places.resize(count);
        return places;
    }

    /* The report on what all agents see under an image, as `netconf audit` prints it. */
    std::string audit(const std::vector<std::uint8_t> &image)
    {
        std::size_t size = 0;
        std::uint64_t at = 0;
        const std::uint32_t status = netconf_audit(&held_, image.data(), image.size(), nullptr, 0, &size, &at);
        if (status != NETCONF_TOO_SMALL) check(status);
        std::vector<std::uint8_t> report(size);
        check(netconf_audit(&held_, image.data(), image.size(), report.data(), report.size(), &size, &at));
        return std::string(report.begin(), report.end());
    }

    /* All events that are pending, in order. */
    std::vector<netconf_event> pending()
    {
        std::vector<netconf_event> events;
        netconf_event some[16];
        std::size_t count = 0;
        do {
            check(netconf_pending(&held_, events.size(), some, 16, &count));
            events.insert(events.end(), some, some + count);
        } while (count == 16);
        return events;
    }

    /* Says that all pending events were performed. */
    void settle() { check(netconf_settle(&held_)); }

    /* Performs each pending event by a function, in order, and then settles them. If the function throws, all are pending
     * still, and those that it performed may be performed again. */
    template <typename Perform> void perform(Perform &&perform_event)
    {
        for (const netconf_event &event : pending()) perform_event(event);
        settle();
    }

    /* The session for calls of netconf.h. */
    struct netconf *handle() noexcept { return &held_; }

  private:
    struct netconf held_ = {nullptr};

    static void check(std::uint32_t status)
    {
        if (status != NETCONF_DONE) throw netconf_error(status);
    }

    /* The line of a refusal that is longer than most. */
    static std::string refusal(const std::string &text, std::size_t size)
    {
        struct netconf closed = {nullptr};
        std::vector<std::uint8_t> line(size);
        const std::uint32_t status = netconf_open(&closed, reinterpret_cast<const std::uint8_t *>(text.data()),
                                                  text.size(), line.data(), line.size(), &size);
        netconf_close(&closed);
        return status == NETCONF_REFUSED ? std::string(line.begin(), line.end()) : netconf_status_text(status);
    }
};

#endif
