// sdsl's two succinct range minimum structures behind plain functions.
#include <sdsl/rmq_support.hpp>

#include <cstddef>
#include <cstdint>
#include <vector>

namespace {

template <class Rmq>
void *made(const std::uint32_t *column, std::size_t length) {
    std::vector<std::uint32_t> counts(column, column + length);
    return new Rmq(&counts);
}

template <class Rmq>
std::size_t asked(const void *rmq, std::size_t i, std::size_t j) {
    return (*static_cast<const Rmq *>(rmq))(i, j);
}

}  // namespace

using Sct = sdsl::rmq_succinct_sct<>;
using Sada = sdsl::rmq_succinct_sada<>;

extern "C" {

void *peer_sct_new(const std::uint32_t *column, std::size_t length) { return made<Sct>(column, length); }
std::size_t peer_sct_ask(const void *rmq, std::size_t i, std::size_t j) { return asked<Sct>(rmq, i, j); }
std::size_t peer_sct_bytes(const void *rmq) { return sdsl::size_in_bytes(*static_cast<const Sct *>(rmq)); }
void peer_sct_free(void *rmq) { delete static_cast<Sct *>(rmq); }

void *peer_sada_new(const std::uint32_t *column, std::size_t length) { return made<Sada>(column, length); }
std::size_t peer_sada_ask(const void *rmq, std::size_t i, std::size_t j) { return asked<Sada>(rmq, i, j); }
std::size_t peer_sada_bytes(const void *rmq) { return sdsl::size_in_bytes(*static_cast<const Sada *>(rmq)); }
void peer_sada_free(void *rmq) { delete static_cast<Sada *>(rmq); }
}
