// Vectors of whole numbers, as clang and g++ from 12 on have them for any processor.
#pragma once
#include <algorithm>
#include <cstdint>

namespace rivals {

using Four = std::int32_t __attribute__((vector_size(16)));
using Eight = std::int32_t __attribute__((vector_size(32)));
using Halves = std::int16_t __attribute__((vector_size(16)));
using Octets = std::int8_t __attribute__((vector_size(16)));
using Longs = std::int64_t __attribute__((vector_size(16)));

inline Eight all(std::int32_t number) { return Eight{} + number; }
inline Eight lesser(Eight left, Eight right) { return left < right ? left : right; }
inline Eight greater(Eight left, Eight right) { return left > right ? left : right; }
inline Eight counting() { return Eight{0, 1, 2, 3, 4, 5, 6, 7}; }

inline bool any(Eight mask) {
    const Four both = __builtin_shufflevector(mask, mask, 0, 1, 2, 3) | __builtin_shufflevector(mask, mask, 4, 5, 6, 7);
    const Longs two = Longs(both);
    return (two[0] | two[1]) != 0;
}

inline std::int32_t least_of(Eight lanes) {
    const Four low = __builtin_shufflevector(lanes, lanes, 0, 1, 2, 3);
    const Four high = __builtin_shufflevector(lanes, lanes, 4, 5, 6, 7);
    Four four = low < high ? low : high;
    const Four turned = __builtin_shufflevector(four, four, 2, 3, 0, 1);
    four = four < turned ? four : turned;
    return std::min(four[0], four[1]);
}

// A divisor with its reciprocal, for numerators between -2^63 and 2^63.
class Divisor {
public:
    explicit Divisor(std::int64_t number) : number_(std::uint64_t(number)), reciprocal_(~0ull / number_) {}

    std::int64_t number() const { return std::int64_t(number_); }

    // The quotient rounded down, and what is left.
    std::int64_t floor(std::int64_t numerator, std::int64_t& rest) const {
        const std::uint64_t sign = std::uint64_t(numerator >> 63), size = std::uint64_t(numerator) ^ sign;
        // the product is the quotient or one less
        std::uint64_t quotient = std::uint64_t((unsigned __int128)(size) * reciprocal_ >> 64);
        std::uint64_t left = size - quotient * number_;
        const bool is_less = left >= number_;
        quotient += is_less;
        left -= is_less ? number_ : 0;
        rest = std::int64_t(sign ? number_ - 1 - left : left);
        return std::int64_t(quotient ^ sign);
    }

    std::int64_t floor(std::int64_t numerator) const {
        std::int64_t rest;
        return floor(numerator, rest);
    }

private:
    std::uint64_t number_, reciprocal_;
};

}  // namespace rivals
