/* baseline.c - a plain C lister, not proved, to set the proved one beside. It reads a sheet from standard
 * input and prints the report: gcc -O2 -o baseline baseline.c */
#include <stdint.h>
#include <stdio.h>
#include <stdlib.h>
#include <string.h>

enum { NODE_LIMIT = 1000000, PLANS = 4096, MOST_VARIABLES = 12, MOST_PAIRS = 192 };
enum ending { FINISHED, SPENT, FULL };

typedef uint16_t set;

struct constraint {
    int arity, scope[3];
    set last[16][16]; /* for the two values before it, the last values of rows; rows of one or two values
                         are taken as rows of three that start with 0 */
};

struct entry {
    uint8_t variable, value, equal;
};

static uint8_t sheet[65536];
static int variables, values, constraints, symmetries;
static set initial[MOST_VARIABLES];
static struct constraint constraint[32];
static uint16_t table[16][MOST_PAIRS];
static struct entry list[16][MOST_PAIRS];
static int list_length;
static uint8_t plan[PLANS][MOST_VARIABLES];
static int plans, nodes;

static int word(int at) {
    return sheet[at] | sheet[at + 1] << 8;
}

static int contains(set s, int value) {
    return s >> value & 1;
}

static void refuse(int number, int item) {
    printf("refused %d %d\n", number, item);
    exit(0);
}

static void ask(int yes, int number, int item) {
    if (!yes)
        refuse(number, item);
}

/* ---- the questions */

static void ask_header(int length) {
    ask(length >= 16, 1, 0);
    variables = word(0), values = word(2), constraints = word(4), symmetries = word(6);
    ask(variables >= 1 && variables <= 12, 2, 0);
    ask(values >= 1 && values <= 16, 3, 0);
    ask(constraints <= 32, 4, 0);
    ask(symmetries <= 16, 5, 0);
    ask(word(14) == length, 6, 0);
    int second = 16 + 2 * variables, third = word(12);
    ask(word(8) == 16 && word(10) == second && third >= second && third <= length, 7, 0);
    for (int i = 0; i < variables; i++) {
        initial[i] = word(16 + 2 * i);
        ask(initial[i] && initial[i] >> values == 0, 8, i);
    }
}

static int ascends(int row, int arity) {
    for (int i = 0; i < arity; i++) {
        int before = word(row - 2 * arity + 2 * i), now = word(row + 2 * i);
        if (before != now)
            return before < now;
    }
    return 0;
}

static void add_row(struct constraint *k, int row) {
    int at[3] = {0, 0, 0};
    for (int i = 0; i < k->arity; i++)
        at[3 - k->arity + i] = word(row + 2 * i);
    k->last[at[0]][at[1]] |= 1 << at[2];
}

static int read_constraint(int item, int at, int third) {
    struct constraint *k = &constraint[item];
    ask(at + 4 <= third, 9, item);
    int arity = k->arity = word(at), rows = word(at + 2);
    ask(arity >= 1 && arity <= 3 && rows <= 256, 10, item);
    int first = at + 4 + 2 * arity, end = first + 2 * arity * rows;
    ask(end <= third, 9, item);
    for (int i = 0; i < arity; i++) {
        k->scope[i] = word(at + 4 + 2 * i);
        ask(k->scope[i] < variables && (i == 0 || k->scope[i - 1] < k->scope[i]), 11, item);
    }
    for (int i = first; i < end; i += 2)
        ask(word(i) < values, 12, item);
    for (int row = first; row < end; row += 2 * arity) {
        ask(row == first || ascends(row, arity), 13, item);
        add_row(k, row);
    }
    return end;
}

static int is_pair(int number) {
    return number < variables * values && contains(initial[number / values], number % values);
}

static int permutes_pairs(const uint16_t *t) {
    uint8_t seen[MOST_PAIRS] = {0};
    for (int number = 0; number < variables * values; number++) {
        if (is_pair(number) ? !is_pair(t[number]) || seen[t[number]] : t[number] != number)
            return 0;
        if (is_pair(number))
            seen[t[number]] = 1;
    }
    return 1;
}

/* Does a set of up to three pairs contain a forbidden set? value[x] is -1 where it has no pair of x. */
static int contains_forbidden(const int *pair, int count) {
    int value[MOST_VARIABLES], places = 0;
    memset(value, -1, sizeof value);
    for (int i = 0; i < count; i++) {
        if (places >> (pair[i] / values) & 1)
            return 1;
        places |= 1 << (pair[i] / values);
        value[pair[i] / values] = pair[i] % values;
    }
    for (const struct constraint *k = constraint; k < constraint + constraints; k++) {
        int at[3] = {0, 0, 0}, i = 0;
        for (; i < k->arity && places >> k->scope[i] & 1; i++)
            at[3 - k->arity + i] = value[k->scope[i]];
        if (i == k->arity && !contains(k->last[at[0]][at[1]], at[2]))
            return 1;
    }
    return 0;
}

/* Walks the choices for a rule's variables from `depth` on; 0 as soon as the image of a choice that is no
 * row contains no forbidden set. */
static int rule_respected(const struct constraint *k, const uint16_t *t, int depth, int *at, int *image) {
    if (depth == k->arity)
        return contains(k->last[at[0]][at[1]], at[2]) || contains_forbidden(image, k->arity);
    for (int v = 0; v < values; v++) {
        if (!contains(initial[k->scope[depth]], v))
            continue;
        at[3 - k->arity + depth] = v;
        image[depth] = t[k->scope[depth] * values + v];
        if (!rule_respected(k, t, depth + 1, at, image))
            return 0;
    }
    return 1;
}

static int respects(const uint16_t *t) {
    for (int a = 0; a < variables * values; a++)
        for (int b = a + 1; b < (a / values + 1) * values; b++) {
            int image[2] = {t[a], t[b]};
            if (is_pair(a) && is_pair(b) && !contains_forbidden(image, 2))
                return 0;
        }
    for (const struct constraint *k = constraint; k < constraint + constraints; k++) {
        int at[3] = {0, 0, 0}, image[3];
        if (!rule_respected(k, t, 0, at, image))
            return 0;
    }
    return 1;
}

static void questions(int length) {
    ask_header(length);
    int third = word(12), at = 16 + 2 * variables, size = variables * values;
    for (int item = 0; item < constraints; item++)
        at = read_constraint(item, at, third);
    ask(at == third, 9, constraints);
    ask(length == third + 2 * symmetries * size, 14, 0);
    for (int item = 0; item < symmetries; item++) {
        for (int i = 0; i < size; i++)
            table[item][i] = word(third + 2 * (item * size + i));
        ask(permutes_pairs(table[item]), 15, item);
        ask(respects(table[item]), 16, item);
    }
}

/* ---- the search */

/* Leaves the variables of a constraint the values that have a row inside the sets; the changed ones. */
static int prune(const struct constraint *k, set *sets) {
    int offset = 3 - k->arity;
    set in[3], left[3] = {0, 0, 0};
    for (int i = 0; i < 3; i++)
        in[i] = i < offset ? 1 : sets[k->scope[i - offset]];
    for (set a = in[0]; a; a &= a - 1)
        for (set b = in[1]; b; b &= b - 1) {
            int v = __builtin_ctz(a), w = __builtin_ctz(b);
            set rows = k->last[v][w] & in[2];
            if (rows) {
                left[0] |= 1 << v;
                left[1] |= 1 << w;
                left[2] |= rows;
            }
        }
    int changed = 0;
    for (int i = offset; i < 3; i++)
        if (left[i] != in[i]) {
            sets[k->scope[i - offset]] = left[i];
            changed |= 1 << k->scope[i - offset];
        }
    return changed;
}

static int some_empty(const set *sets) {
    for (int i = 0; i < variables; i++)
        if (!sets[i])
            return 1;
    return 0;
}

/* Adds the values of a product of sets, unless it is empty. */
static void unite(set *left, const set *product) {
    if (!some_empty(product))
        for (int i = 0; i < variables; i++)
            left[i] |= product[i];
}

/* The filter as a union of products: each assignment that obeys the list breaks its first equality at one
 * entry or at none. Answers with the changed variables. */
static int filter(const struct entry *entries, set *sets) {
    set product[MOST_VARIABLES], left[MOST_VARIABLES] = {0};
    memcpy(product, sets, sizeof product);
    for (const struct entry *e = entries; e < entries + list_length; e++) {
        set whole = product[e->variable], bit = 1 << e->value;
        product[e->variable] = whole & ~bit;
        if (e->equal) {
            unite(left, product);
            product[e->variable] = whole & bit;
        }
        if (!product[e->variable])
            break;
    }
    unite(left, product);
    int changed = 0;
    for (int i = 0; i < variables; i++)
        if (left[i] != sets[i])
            changed |= 1 << i;
    memcpy(sets, left, sizeof left);
    return changed;
}

/* Prunes by constraints and symmetries until nothing moves; 0 if a set is empty. `dirty`: the changed ones. */
static int propagate(set *sets, int dirty) {
    int first = 1;
    while (dirty || first) {
        int moved = 0;
        for (const struct constraint *k = constraint; k < constraint + constraints; k++) {
            int scope = 0;
            for (int i = 0; i < k->arity; i++)
                scope |= 1 << k->scope[i];
            if ((dirty | moved) & scope)
                moved |= prune(k, sets);
        }
        for (int s = 0; s < symmetries; s++)
            moved |= filter(list[s], sets);
        if (some_empty(sets))
            return 0;
        dirty = moved;
        first = 0;
    }
    return 1;
}

/* Adds the nogoods of "variable = value" to each symmetry's list. */
static void extend_lists(int variable, int value) {
    int length = list_length;
    for (int s = 0; s < symmetries; s++) {
        length = list_length;
        for (int v = 0; v <= value; v++) {
            int image = table[s][variable * values + v];
            if (contains(initial[variable], v))
                list[s][length++] = (struct entry){image / values, image % values, v == value};
        }
    }
    list_length = length;
}

static enum ending settle(int depth, const set *parent);

static enum ending try_value(int depth, int value, const set *parent) {
    set sets[MOST_VARIABLES] = {0};
    memcpy(sets, parent, variables * sizeof *sets);
    nodes++;
    sets[depth] = 1 << value;
    extend_lists(depth, value);
    if (!propagate(sets, 1 << depth))
        return FINISHED;
    if (depth + 1 < variables)
        return settle(depth + 1, sets);
    if (plans == PLANS)
        return FULL;
    for (int i = 0; i < variables; i++)
        plan[plans][i] = __builtin_ctz(sets[i]);
    plans++;
    return FINISHED;
}

static enum ending settle(int depth, const set *parent) {
    int length = list_length;
    for (int value = 0; value < values; value++) {
        if (!contains(parent[depth], value))
            continue;
        if (nodes == NODE_LIMIT)
            return SPENT;
        enum ending ending = try_value(depth, value, parent);
        list_length = length;
        if (ending != FINISHED)
            return ending;
    }
    return FINISHED;
}

static enum ending run(void) {
    set sets[MOST_VARIABLES] = {0};
    plans = nodes = list_length = 0;
    memcpy(sets, initial, variables * sizeof *sets);
    return propagate(sets, (1 << variables) - 1) ? settle(0, sets) : FINISHED;
}

/* ---- families (paper 02, #104) */

/* Where a solution stands among all of them. */
static int find(const uint8_t *row) {
    int low = 0, high = plans;
    while (low < high) {
        int middle = (low + high) / 2;
        if (memcmp(plan[middle], row, variables) < 0)
            low = middle + 1;
        else
            high = middle;
    }
    return low;
}

/* The families of all solutions, which stand in the list of plans, by breadth-first search. */
static int families(int exchanges) {
    static uint8_t seen[PLANS];
    static uint16_t queue[PLANS];
    int count = 0, head = 0, tail = 0;
    for (int i = 0; i < plans; i++) {
        if (seen[i])
            continue;
        seen[i] = 1, queue[tail++] = i, count++;
        for (; head < tail; head++)
            for (int s = 0; s < exchanges; s++) {
                uint8_t row[MOST_VARIABLES];
                for (int x = 0; x < variables; x++) {
                    int image = table[s][x * values + plan[queue[head]][x]];
                    row[image / values] = image % values;
                }
                int j = find(row);
                if (!seen[j])
                    seen[j] = 1, queue[tail++] = j;
            }
    }
    return count;
}

/* The last figure: without exchanges the plans are the families, else a run without them lists all solutions; or a dash. */
static void print_figure(enum ending ending) {
    int exchanges = symmetries;
    if (ending == FINISHED && exchanges > 0) {
        symmetries = 0;
        ending = run();
    }
    if (ending == FINISHED)
        printf(" %d\n", families(exchanges));
    else
        puts(" -");
}

int main(void) {
    static const char *const names[] = {"finished", "spent", "full"};
    questions(fread(sheet, 1, sizeof sheet, stdin));
    enum ending ending = run();
    for (int i = 0; i < plans; i++) {
        printf("plan");
        for (int j = 0; j < variables; j++)
            printf(" %d", plan[i][j]);
        putchar('\n');
    }
    printf("%s %d %d", names[ending], plans, nodes);
    print_figure(ending);
    return 0;
}
