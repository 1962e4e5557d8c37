/* SPDX-License-Identifier: Apache-2.0 */
/*
 * netconf as a library: a description of a platform is opened, buffers are granted and revoked at run time, and what is to
 * be written to the translation units for each change is told as a list of events.
 *
 * What a call answers is proved of the code of the library. docs/library.md states it in words, with what a caller must keep.
 * No proof covers the C code that calls it.
 *
 * The library has no global data, starts no thread, takes no lock and calls no function of the system. It calls three
 * functions that the program provides, of one heap:
 *
 *     rattle_alloc, rattle_realloc, rattle_dealloc
 *
 * and memcpy, memmove and memset. docs/library.md says which heaps there are.
 *
 * Calls on one session are made one at a time, in any order of threads that a lock gives. Calls on two sessions do not meet.
 * No call may be made from a signal handler that interrupted a call, nor from a function of the heap.
 */
#ifndef NETCONF_H
#define NETCONF_H

#include <stddef.h>
#include <stdint.h>

#ifdef __cplusplus
extern "C" {
#endif

/* The version of this header: major * 10000 + minor * 100 + patch. */
#define NETCONF_VERSION 300

/*
 * struct netconf - a session: a net with its live grants
 *
 * It begins as {0}, which is a closed session, and is passed by its address. It may be moved to another address. It must not
 * be copied so that both copies are used, and its word must not be written.
 */
struct netconf {
    void *held;
};

/* What a call answers. Below NETCONF_ID_USED the causes are those of all calls; from there on they are refusals. */
enum netconf_status {
    /* It was done. */
    NETCONF_DONE = 0,
    /* The session is closed. Nothing was done. */
    NETCONF_CLOSED = 1,
    /* An argument is none that the call takes. Nothing was done. */
    NETCONF_BAD_ARGUMENT = 2,
    /* There was no memory for it. Nothing was done, and the call may be made again. */
    NETCONF_NO_MEMORY = 3,
    /* The place for the answer is too small; the size that it needs is told. Nothing was done. */
    NETCONF_TOO_SMALL = 4,
    /* The text breaks a rule. */
    NETCONF_REFUSED = 5,
    /* A live grant has the id. */
    NETCONF_ID_USED = 16,
    /* The agent's number is that of no node, or of a node that is no agent. */
    NETCONF_NO_AGENT = 17,
    /* The node's number is that of no node, or the node's addresses are interrupt vectors; for a route, they are none. */
    NETCONF_NO_TARGET = 18,
    /* The node does not accept all of the buffer. */
    NETCONF_NOT_ACCEPTED = 19,
    /* 4,096 grants live. */
    NETCONF_BOOK_FULL = 20,
    /* No placement gives the agent exactly the buffer, at the address where one was asked for. */
    NETCONF_NO_PLACEMENT = 21,
    /* No live grant has the id. */
    NETCONF_NO_GRANT = 22,
    /* No node has the name or the number. */
    NETCONF_NO_NODE = 23,
    /* The bytes are no image of the session's net: they end inside a field. */
    NETCONF_IMAGE_SHORT = 24,
    /* They have another mark, version or number of units. */
    NETCONF_IMAGE_HEADER = 25,
    /* They have another head of a unit. */
    NETCONF_IMAGE_SHAPE = 26,
    /* Bytes follow the last word. */
    NETCONF_IMAGE_TRAILING = 27
};

/* Rights of a grant: the accesses that its agent may make. */
enum netconf_rights {
    NETCONF_READ = 1,
    NETCONF_WRITE = 2,
    NETCONF_READ_WRITE = 3
};

/* Kinds of events. */
enum netconf_event_kind {
    /* The unit has `word` words, and all of them are 0. */
    NETCONF_MAKE = 0,
    /* Word `word` of the unit is set to `value`. Words are numbered from 0. */
    NETCONF_WRITE_WORD = 1,
    /* Wait until no lookup is in flight: each lookup that began before it has ended. */
    NETCONF_FENCE = 2
};

/*
 * struct netconf_event - what is to be done to the hardware
 *
 * Events are performed in the order in which they are told. To perform the last one again changes nothing.
 */
struct netconf_event {
    /* One of enum netconf_event_kind. */
    uint32_t kind;
    /* The number of the unit's node; 0 at a fence. */
    uint32_t unit;
    /* The number of a word, or how many words there are; 0 at a fence. */
    uint32_t word;
    /* 0. */
    uint32_t unused;
    /* What the word is set to; else 0. */
    uint64_t value;
};

/* Accesses: what is asked of an address. */
enum netconf_access {
    NETCONF_FOR_READ = 1,
    NETCONF_FOR_WRITE = 2
};

/* struct netconf_place - a node and an address in it */
struct netconf_place {
    /* The number of the node. */
    uint32_t node;
    /* 0. */
    uint32_t unused;
    /* The address in the node. */
    uint64_t address;
};

/*
 * struct netconf_row - addresses that lead to a node, one after another
 *
 * The first address leads to `place`, and each further one to the address behind that of the one before it.
 */
struct netconf_row {
    /* The first address. */
    uint64_t first;
    /* The last address. */
    uint64_t last;
    /* Where the first address leads. */
    struct netconf_place place;
};

/* struct netconf_piece - a piece of a buffer, which becomes a grant of its own */
struct netconf_piece {
    /* The id of its grant. */
    uint32_t id;
    /* The number of the node that accepts it. */
    uint16_t node;
    /* 0. */
    uint16_t unused;
    /* Its first address in the node. */
    uint64_t base;
    /* How many addresses it has, at least 1. */
    uint64_t size;
};

/*
 * netconf_open - open a description
 * @session: the session, open or closed
 * @text: the description, of at most 4,194,304 bytes
 * @text_size: how many bytes it has
 * @line: where the reason of a refusal is written, as the program prints it, without a newline; it is not ended by a 0
 * @room: how many bytes there are at @line; 256 are enough for most
 * @written: how many bytes of @line were written, or are needed
 *
 * Makes a session of the description. No grant lives in it. Commands of the description are not run. What is pending
 * then is NETCONF_MAKE for each translation unit, in ascending order of its number.
 *
 * A session that was open is let go where the description is opened, and stays open where it is not.
 *
 * Returns NETCONF_DONE, NETCONF_REFUSED (the first rule that the text breaks is at @line), NETCONF_TOO_SMALL (of @line) or
 * NETCONF_NO_MEMORY. At each but NETCONF_DONE the session is as it was.
 */
uint32_t netconf_open(struct netconf *session, const uint8_t *text, size_t text_size, uint8_t *line, size_t room,
                      size_t *written);

/*
 * netconf_node - find a node by its name
 * @session: the session
 * @name: the full name, as the description spells it
 * @name_size: how many bytes it has
 * @number: where the number of the node is left
 *
 * Nodes are numbered from 0, in the order in which the description declares them.
 *
 * Returns NETCONF_DONE, NETCONF_NO_NODE, NETCONF_CLOSED or NETCONF_BAD_ARGUMENT (@name is not UTF-8). It takes no memory.
 */
uint32_t netconf_node(struct netconf *session, const uint8_t *name, size_t name_size, uint16_t *number);

/*
 * netconf_name - tell the name of a node
 * @session: the session
 * @node: the number of the node
 * @out: where its full name is written, not ended by a 0
 * @room: how many bytes there are at @out
 * @written: how many bytes the name has
 *
 * Returns NETCONF_DONE, NETCONF_NO_NODE, NETCONF_CLOSED or NETCONF_TOO_SMALL. It takes no memory.
 */
uint32_t netconf_name(struct netconf *session, uint16_t node, uint8_t *out, size_t room, size_t *written);

/*
 * netconf_grant - grant a buffer
 * @session: the session
 * @id: by which the grant is revoked; that of no live grant
 * @agent: the number of the agent's node
 * @node: the number of the node that accepts the buffer
 * @base: the first address of the buffer in @node
 * @size: how many addresses the buffer has, at least 1
 * @rights: one of enum netconf_rights
 * @address: where the first address of the buffer in the agent is left
 *
 * Grants the buffer at the first admissible placement: one by which the agent reaches exactly the buffer, no agent sees
 * anything else that it did not see, and each agent sees all that it saw. The order of placements is that of
 * docs/language.md. The writes for it are pending then, after those that were.
 *
 * Returns NETCONF_DONE, or the first refusal that holds, in the order of enum netconf_status: NETCONF_ID_USED,
 * NETCONF_NO_AGENT, NETCONF_NO_TARGET, NETCONF_NOT_ACCEPTED (the first address that is not accepted is left at @address),
 * NETCONF_BOOK_FULL, NETCONF_NO_PLACEMENT; or NETCONF_CLOSED, NETCONF_BAD_ARGUMENT (@rights) or NETCONF_NO_MEMORY. At each
 * but NETCONF_DONE the session is as it was.
 */
uint32_t netconf_grant(struct netconf *session, uint32_t id, uint16_t agent, uint16_t node, uint64_t base,
                       uint64_t size, uint8_t rights, uint64_t *address);

/*
 * netconf_grant_at - grant a buffer at an address of the agent
 * @at: the first address of the buffer in the agent
 *
 * As netconf_grant, at the first admissible placement of those at @at. NETCONF_NO_PLACEMENT says that none is admissible
 * there.
 */
uint32_t netconf_grant_at(struct netconf *session, uint32_t id, uint16_t agent, uint16_t node, uint64_t base,
                          uint64_t size, uint8_t rights, uint64_t at, uint64_t *address);

/*
 * netconf_gather - grant a buffer in pieces
 * @session: the session
 * @agent: the number of the agent's node
 * @pieces: the pieces, in the order in which the agent is to see them
 * @count: how many they are, 1 to 8
 * @rights: one of enum netconf_rights
 * @address: where the first address of the buffer in the agent is left
 * @piece: where the number of a piece that is refused is left, counted from 0
 *
 * Grants the pieces so that the agent sees them at consecutive addresses, at the first admissible scattered placement
 * (docs/language.md). Each is a grant of its own, and is revoked by its id.
 *
 * Returns NETCONF_DONE, or the first refusal that holds, in the order of enum netconf_status: NETCONF_ID_USED (a live grant
 * or an earlier piece has the id of @piece), NETCONF_NO_AGENT, NETCONF_NO_TARGET (of @piece), NETCONF_NOT_ACCEPTED (of
 * @piece, with the first address that is not accepted at @address), NETCONF_BOOK_FULL (4,096 grants would not be enough),
 * NETCONF_NO_PLACEMENT; or NETCONF_CLOSED, NETCONF_BAD_ARGUMENT (@count or @rights) or NETCONF_NO_MEMORY. At each but
 * NETCONF_DONE the session is as it was.
 */
uint32_t netconf_gather(struct netconf *session, uint16_t agent, const struct netconf_piece *pieces, size_t count,
                        uint8_t rights, uint64_t *address, uint32_t *piece);

/*
 * netconf_route - route a line of an agent to an interrupt vector
 * @session: the session
 * @id: by which the route is revoked; that of no live grant
 * @agent: the number of the agent's node
 * @line: the address of the agent that is the line
 * @node: the number of a node whose addresses are interrupt vectors
 * @vector: where the vector is left
 *
 * Routes the line to the least vector of @node that no live grant has and that has an admissible placement at the line.
 * It is a grant of one address, for reading and writing, and is revoked as one.
 *
 * Returns NETCONF_DONE, or the first refusal that holds, in the order of enum netconf_status: NETCONF_ID_USED,
 * NETCONF_NO_AGENT, NETCONF_NO_TARGET (@node is no node, or its addresses are no vectors), NETCONF_BOOK_FULL,
 * NETCONF_NO_PLACEMENT (no such vector is there); or NETCONF_CLOSED or NETCONF_NO_MEMORY. At each but NETCONF_DONE the
 * session is as it was.
 */
uint32_t netconf_route(struct netconf *session, uint32_t id, uint16_t agent, uint64_t line, uint16_t node,
                       uint64_t *vector);

/*
 * netconf_revoke - take a grant out
 * @session: the session
 * @id: the id of a live grant
 *
 * The writes for it are pending then, after those that were. The buffer may be used for something else once they were
 * performed and a fence after them.
 *
 * Returns NETCONF_DONE, NETCONF_NO_GRANT, NETCONF_CLOSED or NETCONF_NO_MEMORY. At each but NETCONF_DONE the session is as it
 * was.
 */
uint32_t netconf_revoke(struct netconf *session, uint32_t id);

/*
 * netconf_resolve - tell where an address leads
 * @session: the session
 * @node: the number of a node, most often an agent
 * @address: an address of the node
 * @access: one of enum netconf_access
 * @places: where the places to which it leads are written, in ascending order of node and address
 * @room: how many places there is room for
 * @count: to how many places it leads
 *
 * Answers for the live grants, as though all that is pending were performed. An address of an agent leads to what the
 * description gives it and to what live grants whose rights allow the access give it, and to nothing else. It leads
 * nowhere where @count is 0. Where @count is more than @room, the first places are written.
 *
 * Returns NETCONF_DONE, NETCONF_NO_NODE, NETCONF_CLOSED, NETCONF_BAD_ARGUMENT (@access) or NETCONF_NO_MEMORY. The session
 * is as it was.
 */
uint32_t netconf_resolve(struct netconf *session, uint16_t node, uint64_t address, uint8_t access,
                         struct netconf_place *places, size_t room, size_t *count);

/*
 * netconf_view - tell what a node sees
 * @session: the session
 * @node: the number of a node, most often an agent
 * @access: one of enum netconf_access
 * @from: the number of the first row to write, counted from 0
 * @rows: where rows are written
 * @room: how many rows there is room for
 * @count: how many rows there are in all
 *
 * Answers for the live grants, as though all that is pending were performed. The rows are as few as can be, in ascending
 * order, and no two of other addresses overlap. An address that leads to several places is in as many rows, with the same
 * first and last address, one after another, in ascending order of node and address. An address that is in no row leads
 * nowhere. Each call makes all rows anew.
 *
 * Returns NETCONF_DONE, NETCONF_NO_NODE, NETCONF_CLOSED, NETCONF_BAD_ARGUMENT (@access) or NETCONF_NO_MEMORY. The session
 * is as it was.
 */
uint32_t netconf_view(struct netconf *session, uint16_t node, uint8_t access, size_t from, struct netconf_row *rows,
                      size_t room, size_t *count);

/*
 * netconf_image - write the image of the tables
 * @session: the session
 * @out: where the image is written
 * @room: how many bytes there are at @out
 * @written: how many bytes the image has
 *
 * The image is that of the live grants, as though all that is pending were performed. docs/image.md has its bytes, and
 * tools/loader/netconf_image.h reads it.
 *
 * Returns NETCONF_DONE, NETCONF_CLOSED, NETCONF_TOO_SMALL or NETCONF_NO_MEMORY. The session is as it was.
 */
uint32_t netconf_image(struct netconf *session, uint8_t *out, size_t room, size_t *written);

/*
 * netconf_lookup - tell where an address of an agent leads under an image
 * @session: the session
 * @image: an image of the session's net, whoever made it
 * @image_size: how many bytes it has
 * @agent: the number of the agent's node
 * @address: an address of the agent
 * @access: one of enum netconf_access
 * @places: where the places to which it leads are written, in ascending order of node and address
 * @room: how many places there is room for
 * @count: to how many places it leads
 * @at: where the place of the first field that is wrong is left, if the bytes are no image: the number of a byte, or at
 *      NETCONF_IMAGE_SHAPE that of a head, both counted from 0
 *
 * Answers under the records of the image in place of those of the live grants. Nothing but the header, the heads and the
 * records on the way is read. The grants of the session do not matter.
 *
 * Returns NETCONF_DONE, NETCONF_NO_AGENT, NETCONF_IMAGE_SHORT, NETCONF_IMAGE_HEADER, NETCONF_IMAGE_SHAPE,
 * NETCONF_IMAGE_TRAILING, NETCONF_CLOSED, NETCONF_BAD_ARGUMENT (@access) or NETCONF_NO_MEMORY. The session is as it was.
 */
uint32_t netconf_lookup(struct netconf *session, const uint8_t *image, size_t image_size, uint16_t agent,
                        uint64_t address, uint8_t access, struct netconf_place *places, size_t room, size_t *count,
                        uint64_t *at);

/*
 * netconf_audit - tell what all agents see under an image
 * @session: the session
 * @image: an image of the session's net, whoever made it
 * @image_size: how many bytes it has
 * @out: where the report is written, as `netconf audit` prints it; it is not ended by a 0
 * @room: how many bytes there are at @out
 * @written: how many bytes the report has
 * @at: as that of netconf_lookup
 *
 * The report says for each agent and access what it sees under the records of the image, the slots with shut-out records,
 * and the addresses that several agents see. docs/audit.md has its form.
 *
 * Returns NETCONF_DONE, NETCONF_IMAGE_SHORT, NETCONF_IMAGE_HEADER, NETCONF_IMAGE_SHAPE, NETCONF_IMAGE_TRAILING,
 * NETCONF_CLOSED, NETCONF_TOO_SMALL or NETCONF_NO_MEMORY. The session is as it was.
 */
uint32_t netconf_audit(struct netconf *session, const uint8_t *image, size_t image_size, uint8_t *out, size_t room,
                       size_t *written, uint64_t *at);

/*
 * netconf_pending - read the events that are to be done
 * @session: the session
 * @from: the number of the first event to read, counted from 0
 * @events: where events are written
 * @room: how many events there is room for
 * @count: how many were written; fewer than @room where there are no more
 *
 * Reads the events that were caused since netconf_open or the last netconf_settle, in order. It takes no memory and changes
 * nothing.
 *
 * Returns NETCONF_DONE or NETCONF_CLOSED.
 */
uint32_t netconf_pending(struct netconf *session, size_t from, struct netconf_event *events, size_t room,
                         size_t *count);

/*
 * netconf_settle - say that all pending events were performed
 * @session: the session
 *
 * Nothing is pending then. It takes no memory.
 *
 * Returns NETCONF_DONE or NETCONF_CLOSED.
 */
uint32_t netconf_settle(struct netconf *session);

/*
 * netconf_close - let a session go
 * @session: the session, open or closed; closed afterwards
 *
 * It gives back all memory of the session, and takes none. It does nothing to the hardware.
 */
void netconf_close(struct netconf *session);

/*
 * netconf_run - answer a text as the program does
 * @text: the description and its commands
 * @text_size: how many bytes it has
 * @out: where the answer is written; it is not ended by a 0
 * @room: how many bytes there are at @out
 * @written: how many bytes the answer has; 0 for want of memory
 * @exit_status: where the status with which the program ends is left: 0, or 4 where the text is refused; 0 for want of memory
 *
 * Does what `netconf run` does with the text on its standard input. No session is needed.
 *
 * Returns NETCONF_DONE, NETCONF_TOO_SMALL (of @out) or NETCONF_NO_MEMORY. At each but NETCONF_DONE @out is as it was.
 */
uint32_t netconf_run(const uint8_t *text, size_t text_size, uint8_t *out, size_t room, size_t *written,
                     uint8_t *exit_status);

/*
 * netconf_status_text - a status in words
 * @status: what a call returned
 *
 * Returns a constant text of a few words.
 */
static inline const char *netconf_status_text(uint32_t status)
{
    switch (status) {
    case NETCONF_DONE:
        return "done";
    case NETCONF_CLOSED:
        return "the session is closed";
    case NETCONF_BAD_ARGUMENT:
        return "an argument is none that the call takes";
    case NETCONF_NO_MEMORY:
        return "no memory";
    case NETCONF_TOO_SMALL:
        return "the place for the answer is too small";
    case NETCONF_REFUSED:
        return "the text breaks a rule";
    case NETCONF_ID_USED:
        return "a live grant has the id";
    case NETCONF_NO_AGENT:
        return "no such agent";
    case NETCONF_NO_TARGET:
        return "no such node for a buffer";
    case NETCONF_NOT_ACCEPTED:
        return "the node does not accept all of the buffer";
    case NETCONF_BOOK_FULL:
        return "4,096 grants live";
    case NETCONF_NO_PLACEMENT:
        return "no placement is admissible";
    case NETCONF_NO_GRANT:
        return "no live grant has the id";
    case NETCONF_NO_NODE:
        return "no such node";
    case NETCONF_IMAGE_SHORT:
        return "the image ends inside a field";
    case NETCONF_IMAGE_HEADER:
        return "the image has another mark, version or number of units";
    case NETCONF_IMAGE_SHAPE:
        return "the image has another head of a unit";
    case NETCONF_IMAGE_TRAILING:
        return "bytes follow the image";
    default:
        return "no status of the library";
    }
}

#ifdef __cplusplus
}
#endif

#endif
