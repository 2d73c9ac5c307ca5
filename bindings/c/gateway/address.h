/* Who sent a datagram: an address of IPv4 or IPv6, and a port. */
#ifndef GATEWAY_ADDRESS_H
#define GATEWAY_ADDRESS_H

#include "bytes.h"
#include <netinet/in.h>
#include <sys/socket.h>

typedef struct address {
    struct sockaddr_storage bytes;
    socklen_t len;
} address;

/* A hash of the address without its port: of IPv6 of its network of 64 bits, since who has one address of such a network has all. */
static inline uint64_t address_host(const address *of) {
    if (of->bytes.ss_family == AF_INET6) {
        const struct sockaddr_in6 *six = (const struct sockaddr_in6 *)&of->bytes;
        return hash_bytes(HASH_BEGIN, six->sin6_addr.s6_addr, 8);
    }
    const struct sockaddr_in *four = (const struct sockaddr_in *)&of->bytes;
    return hash_bytes(HASH_BEGIN, (const uint8_t *)&four->sin_addr, sizeof four->sin_addr);
}

/* A hash of the whole address and the port. */
static inline uint64_t address_hash(const address *of) {
    if (of->bytes.ss_family == AF_INET6) {
        const struct sockaddr_in6 *six = (const struct sockaddr_in6 *)&of->bytes;
        return hash_bytes(hash_bytes(HASH_BEGIN, six->sin6_addr.s6_addr, 16), (const uint8_t *)&six->sin6_port, sizeof six->sin6_port);
    }
    const struct sockaddr_in *four = (const struct sockaddr_in *)&of->bytes;
    return hash_bytes(address_host(of), (const uint8_t *)&four->sin_port, sizeof four->sin_port);
}

#endif
