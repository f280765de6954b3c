// The alternatives by Gecode: one space for the book, propagated once; then for each case a clone with that case's answers.
//
// A space whose propagation fails has no domains to read: where the desk leaves what no chain of tables ties to the empty field, such
// a case ends early here. It counts no code, as in the desk.
#include <gecode/int.hh>

#include <cstddef>
#include <cstdint>

using namespace Gecode;

namespace {

const uint8_t no_answer = 255;

// A field list and tables as in the accepted book's bytes.
struct View {
    const uint8_t *bytes;
    size_t length;
    int fields() const { return bytes[length - 4]; }
    int tables() const { return bytes[length - 3]; }
    int codes(int field) const { return bytes[length - 6 - fields() + field]; }
};

class BookSpace : public Space {
  public:
    IntVarArray fields;

    explicit BookSpace(const View &book) : fields(*this, book.fields()) {
        for (int f = 0; f < book.fields(); f++) fields[f] = IntVar(*this, 0, book.codes(f) - 1);
        const uint8_t *at = book.bytes;
        for (int i = 0; i < book.tables(); i++) at = post_table(at);
    }

    explicit BookSpace(BookSpace &other) : Space(other) { fields.update(*this, other.fields); }

    Space *copy() override { return new BookSpace(*this); }

  private:
    // Posts the table at `at`, and answers the place behind it.
    const uint8_t *post_table(const uint8_t *at) {
        int arity = at[0], rows = at[1 + arity] + 256 * at[2 + arity];
        IntVarArgs columns(arity);
        for (int j = 0; j < arity; j++) columns[j] = fields[at[1 + j]];
        TupleSet tuples(arity);
        const uint8_t *row = at + 3 + arity;
        for (int r = 0; r < rows; r++, row += arity) {
            IntArgs codes(arity);
            for (int j = 0; j < arity; j++) codes[j] = row[j];
            tuples.add(codes);
        }
        tuples.finalize();
        extensional(*this, columns, tuples);
        return row;
    }
};

// How many codes field `relaxed` has with its own answer left out, or 0 where some field is empty then; for -1 all answers are held and
// nothing is counted.
uint64_t one_case(BookSpace *root, const uint8_t *sheet, int relaxed) {
    BookSpace *space = static_cast<BookSpace *>(root->clone());
    uint64_t codes = 0;
    for (int f = 0; f < space->fields.size(); f++)
        if (sheet[f] != no_answer && f != relaxed) rel(*space, space->fields[f], IRT_EQ, sheet[f]);
    if (space->status() != SS_FAILED && relaxed >= 0) codes = space->fields[relaxed].size();
    delete space;
    return codes;
}

}  // namespace

extern "C" {

// The book's space, propagated without answers; null where it fails.
void *gecode_open(const uint8_t *book, size_t length) {
    BookSpace *root = new BookSpace(View{book, length});
    if (root->status() != SS_FAILED) return root;
    delete root;
    return nullptr;
}

void gecode_close(void *root) { delete static_cast<BookSpace *>(root); }

// The total of alternatives, from n + 1 cases.
uint64_t gecode_alternatives(void *root, const uint8_t *sheet) {
    BookSpace *space = static_cast<BookSpace *>(root);
    uint64_t total = one_case(space, sheet, -1);
    for (int f = 0; f < space->fields.size(); f++)
        if (sheet[f] != no_answer) total += one_case(space, sheet, f);
    return total;
}
}
