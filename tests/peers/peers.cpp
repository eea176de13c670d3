// Outside implementations behind C functions: Boost.Random's Sobol engine over a table that is handed in, and GSL's two generators.
//
// What Boost's engine cannot do: its sequence begins at index 1; its first axis is always the plain binary one (degree 0), and a degree of 0 in
// the table gives an axis of zeros. With words of 32 bits it goes up to index 2^32 - 1, and the degree is not limited.
// What GSL's generators cannot do: they begin at index 1 and only step; Sobol has words of 30 bits.
#include <cstddef>
#include <cstdint>

#include <boost/random/sobol.hpp>
#include <gsl/gsl_qrng.h>

namespace {

// The table of the next engine. Boost asks a type for its table, so the table is global.
struct Table {
    typedef std::uint32_t value_type;
    static const unsigned max_dimension = 7;

    static const value_type *polynomials; // of axis n: 2^d + a_1 2^(d-1) + .. + 1
    static const value_type *m;           // of axis n: m_1 to m_d at 12 n

    static value_type polynomial(std::size_t n) { return polynomials[n]; }
    static value_type minit(std::size_t n, std::size_t i) { return m[12 * n + i]; }
};

const Table::value_type *Table::polynomials;
const Table::value_type *Table::m;

} // namespace

// The points of the indexes first to first + count - 1, first being 1 or more: the binary axis and then the table's, `axes` in all. The first
// point is reached by Boost's jump, the others by its steps.
extern "C" void boost_sobol(std::size_t axes, const std::uint32_t *polynomials, const std::uint32_t *m, std::uint32_t first, std::size_t count,
                            std::uint32_t *out) {
    Table::polynomials = polynomials;
    Table::m = m;
    boost::random::sobol_engine<std::uint32_t, 32, Table> engine(axes);
    engine.seed(first - 1);
    engine.generate(out, out + axes * count);
}

// The points of the indexes first to first + count - 1, first being 1 or more, of six axes.
extern "C" int gsl_points(int halton, std::size_t first, std::size_t count, double *out) {
    gsl_qrng *generator = gsl_qrng_alloc(halton ? gsl_qrng_halton : gsl_qrng_sobol, 6);
    if (generator == nullptr)
        return 1;
    double skipped[6];
    for (std::size_t index = 1; index < first; index++)
        gsl_qrng_get(generator, skipped);
    for (std::size_t i = 0; i < count; i++)
        gsl_qrng_get(generator, out + 6 * i);
    gsl_qrng_free(generator);
    return 0;
}
