/* Makes small C projects with many macros, of which most are valid and some can be rewritten. */
#include <string.h>

#include "inputs.h"

enum { MOST_MACROS = 24, MOST_DEPTH = 3 };

/* What a macro's body is, and so how it is used. */
enum shape { CONSTANT, VALUE, EXPRESSION, POINTER, STORE, LAZY, TEXT, PASTE, VARIADIC, ALIAS, TYPE, EMPTY, PIECE, LIST, STATEMENT };

struct macro {
    char name[8];
    enum shape shape;
    size_t parameters;
    int is_constant, is_used;
    size_t target;
};

struct maker {
    struct chance *chance;
    struct text *to;
    struct macro macros[MOST_MACROS];
    size_t macro_count, function_count, object_count;
    /* The names and numbers that stand where an int may stand. */
    const char *const *leaves;
    size_t leaf_count;
    /* Whether arguments store and call, whether other types than int are used, and whether spaces, comments and newlines come. */
    int stores, mixes, spreads;
    /* Whether only constants may be put, whether nothing may store or call, and whether only constants were put. */
    int wants_constant, is_calm, was_constant;
};

#define COUNT_OF(array) (sizeof(array) / sizeof((array)[0]))

static const char *const NUMBERS[] = { "0", "1", "2", "3", "7", "16", "'a'", "0x10", "010" };
static const char *const LOCALS[] = { "a", "b", "i", "k", "a", "b", "i", "k", "1", "2", "3", "'b'", "count", "*p", "q->m", "one.m", "row[1]" };
static const char *const GLOBALS[] = { "1", "2", "3", "count", "row[2]", "one.m", "g" };
static const char *const MIXED[] = {
    "1u", "2L", "u", "l", "c", "(unsigned char)3", "sizeof(int)", "0x80000000", "-1", "2147483647", "g", "p", "\"s\"",
};
static const char *const OPERATORS[] = { "+", "-", "*", "&", "|", "^", "<", ">", "<=", ">=", "==", "!=", "&&", "||" };

static size_t chosen(struct maker *m, size_t bound) { return below(m->chance, bound); }
static int once_in(struct maker *m, size_t bound) { return one_in(m->chance, bound); }
static const char *any(struct maker *m, const char *const *of, size_t count) { return of[chosen(m, count)]; }
static void put(struct maker *m, const char *words) { add(m->to, words); }
static void put_number(struct maker *m, size_t number) { add_number(m->to, number); }

#define ANY(m, array) any(m, array, COUNT_OF(array))

static void expression(struct maker *m, size_t depth);

static void spread(struct maker *m, const char *const *kinds, size_t count)
{
    put(m, m->spreads && once_in(m, 8) ? any(m, kinds, count) : " ");
}

/* The space between two tokens of a directive. */
static void gap(struct maker *m)
{
    static const char *const KINDS[] = { "  ", "\t", " /* c */ ", " \\\n", "\\\n ", " /**/", " ?\?/\n", "/* two\nlines */" };
    spread(m, KINDS, COUNT_OF(KINDS));
}

/* The space between two tokens of the text. */
static void space(struct maker *m)
{
    static const char *const KINDS[] = { "\n", "\n    ", " /* c */ ", " // c\n", "\\\n ", "\t", "\v", "\f" };
    spread(m, KINDS, COUNT_OF(KINDS));
}

static void leaf(struct maker *m)
{
    if (m->wants_constant || once_in(m, 4)) {
        put(m, ANY(m, NUMBERS));
    } else if (m->mixes && once_in(m, 5)) {
        m->was_constant = 0;
        put(m, ANY(m, MIXED));
    } else {
        m->was_constant = 0;
        put(m, any(m, m->leaves, m->leaf_count));
    }
}

/* What is passed to a macro. */
static void argument(struct maker *m, size_t depth)
{
    static const char *const STORES[] = { "a++", "--b", "(i = 2)", "next()", "k += 1", "putchar('x')", "(a, b)", "*p++" };
    static const char *const STRANGE[] = { "", "(", "a b", "int", "{ 1 }", "#", "\"x\"", "'('", ";", "-", "...", "a, b" };
    int was_calm = m->is_calm;
    m->is_calm = !m->stores;
    if (m->stores && !m->wants_constant && once_in(m, 4))
        put(m, ANY(m, STORES));
    else if (m->mixes && once_in(m, 40))
        put(m, ANY(m, STRANGE));
    else if (depth == 0 || !once_in(m, 3))
        leaf(m);
    else
        expression(m, depth - 1);
    m->is_calm = was_calm;
}

static void arguments(struct maker *m, size_t count, size_t depth)
{
    count += m->mixes && once_in(m, 60);
    put(m, "(");
    for (size_t number = 0; number < count; number++) {
        if (number > 0)
            put(m, ",");
        if (number > 0)
            space(m);
        argument(m, depth);
    }
    put(m, ")");
}

static void use_text(struct maker *m, const struct macro *macro)
{
    put(m, once_in(m, 2) ? "(int)sizeof " : "*");
    put(m, macro->name);
    arguments(m, macro->parameters, 1);
}

static void use_paste(struct maker *m, const struct macro *macro)
{
    static const char *const PAIRS[] = { "(1, 2)", "(co, unt)", "(i,)", "(, k)", "(0x, 1)", "(ro, w[1])", "(a, )", "(<, <)" };
    put(m, macro->name);
    put(m, PAIRS[chosen(m, m->mixes ? COUNT_OF(PAIRS) : 5)]);
}

static void use_store(struct maker *m, const struct macro *macro, size_t depth)
{
    static const char *const PLACES[] = { "i", "k", "count", "*p", "q->m", "row[2]" };
    put(m, macro->name);
    put(m, "(");
    put(m, ANY(m, PLACES));
    if (macro->parameters > 1) {
        put(m, ", ");
        argument(m, depth);
    }
    put(m, ")");
}

static void use_pointer(struct maker *m, const struct macro *macro)
{
    static const char *const POINTERS[] = { "(q)", "(&one)", "(q->next)", "(q + 0)" };
    put(m, macro->name);
    put(m, ANY(m, POINTERS));
}

static void use_called(struct maker *m, const struct macro *macro, const struct macro *as, size_t depth)
{
    put(m, macro->name);
    if (m->spreads)
        space(m);
    if (as->shape != CONSTANT && as->shape != VALUE)
        arguments(m, as->parameters, depth);
}

/* A name that changes how what stands behind it is read. */
static void use_before_leaf(struct maker *m, const char *open, const char *name, const char *close, const char *end)
{
    put(m, open);
    put(m, name);
    put(m, close);
    leaf(m);
    put(m, end);
}

/* Another macro, whose name is passed. */
static void use_list(struct maker *m, const struct macro *macro)
{
    put(m, "(");
    put(m, macro->name);
    put(m, "(");
    put(m, m->macros[macro->target].name);
    put(m, ") 0)");
}

/* A use of a macro that is an expression. */
static void use(struct maker *m, const struct macro *macro, size_t depth)
{
    m->was_constant &= macro->is_constant;
    switch (macro->shape) {
    case CONSTANT: case VALUE: put(m, macro->name); break;
    case EXPRESSION: case LAZY: case VARIADIC: use_called(m, macro, macro, depth); break;
    case ALIAS: use_called(m, macro, &m->macros[macro->target], depth); break;
    case POINTER: use_pointer(m, macro); break;
    case STORE: use_store(m, macro, depth); break;
    case TEXT: use_text(m, macro); break;
    case PASTE: use_paste(m, macro); break;
    case TYPE: use_before_leaf(m, "(", macro->name, ")", ""); break;
    case EMPTY: use_before_leaf(m, "", macro->name, " ", ""); break;
    case PIECE: use_before_leaf(m, "", macro->name, " ", ")"); break;
    case LIST: use_list(m, macro); break;
    case STATEMENT: leaf(m); break;
    }
}

/* Uses a macro, and rather one that hasn't been used yet. */
static void use_some(struct maker *m, size_t depth)
{
    for (size_t tries = 0; m->macro_count > 0 && tries < 6; tries++) {
        struct macro *macro = &m->macros[chosen(m, m->macro_count)];
        if ((m->wants_constant && !macro->is_constant) || (macro->is_used && tries < 3))
            continue;
        macro->is_used = 1;
        use(m, macro, depth);
        return;
    }
    leaf(m);
}

static void binary(struct maker *m, size_t depth)
{
    static const char *const SAFE[] = { " / (1 | ", " % (1 | ", " << (3 & ", " >> (1 & " };
    put(m, "(");
    expression(m, depth);
    if (once_in(m, 5)) {
        put(m, ANY(m, SAFE));
        expression(m, depth);
        put(m, ")");
    } else {
        space(m);
        put(m, ANY(m, OPERATORS));
        space(m);
        expression(m, depth);
    }
    put(m, ")");
}

static void unary(struct maker *m, size_t depth)
{
    static const char *const SIGNS[] = { "-", "~", "!", "+", "(int)", "(char)", "(long)", "(int)sizeof ", "(_Bool)", "(unsigned short)" };
    put(m, SIGNS[chosen(m, m->wants_constant ? 4 : m->mixes ? COUNT_OF(SIGNS) : 5)]);
    put(m, "(");
    expression(m, depth);
    put(m, ")");
}

static void conditional(struct maker *m, size_t depth)
{
    put(m, "(");
    expression(m, depth);
    put(m, " ? ");
    expression(m, depth);
    put(m, " : ");
    expression(m, depth);
    put(m, ")");
}

/* A call of a function that stands further up. */
static void call(struct maker *m, size_t depth)
{
    if (m->wants_constant || m->is_calm || m->function_count == 0) {
        leaf(m);
        return;
    }
    m->was_constant = 0;
    put(m, "f");
    put_number(m, chosen(m, m->function_count));
    arguments(m, 2, depth);
}

static void store(struct maker *m, size_t depth)
{
    static const char *const STORES[] = { "(k = ", "(count += ", "(row[1] = ", "(i++ + ", "(b, ", "(q->m |= ", "(*p-- - ", "(a <<= 1 & " };
    if (m->wants_constant || m->is_calm) {
        leaf(m);
        return;
    }
    m->was_constant = 0;
    put(m, ANY(m, STORES));
    expression(m, depth);
    put(m, ")");
}

/* An expression of type int, or one near it. */
static void expression(struct maker *m, size_t depth)
{
    if (depth == 0) {
        leaf(m);
        return;
    }
    switch (chosen(m, 16)) {
    case 0: leaf(m); break;
    case 1: case 2: binary(m, depth - 1); break;
    case 3: unary(m, depth - 1); break;
    case 4: conditional(m, depth - 1); break;
    case 5: call(m, depth - 1); break;
    case 6: store(m, depth - 1); break;
    default: use_some(m, depth - 1); break;
    }
}

static void constant(struct maker *m)
{
    int before = m->wants_constant;
    m->wants_constant = !(m->mixes && once_in(m, 10));
    expression(m, chosen(m, 3));
    m->wants_constant = before;
}

static const char *const PARAMETERS[] = { "x", "y", "z" };

/* A parameter in a body, in its parentheses or not, and perhaps in a use of another macro. */
static void operand(struct maker *m, const char *name)
{
    static const char *const OPENS[] = {
        "(", "(", "(", "(", "(", "(", "", "-(", "(int)(", "(1 + (", "((1, ", "row[3 & (", "f0(1, (", "!(", "(2 * -(",
    };
    static const char *const CLOSES[] = { ")", ")", ")", ")", ")", ")", "", ")", ")", "))", "))", ")]", "))", ")", "))" };
    size_t kind = chosen(m, COUNT_OF(OPENS));
    if (m->macro_count > 0 && once_in(m, 5)) {
        const struct macro *other = &m->macros[chosen(m, m->macro_count)];
        if (other->shape == EXPRESSION && other->parameters == 1) {
            m->was_constant &= other->is_constant;
            put(m, other->name);
            kind = 0;
        }
    }
    if (OPENS[kind][0] == 'r' || OPENS[kind][0] == 'f')
        m->was_constant = 0;
    put(m, OPENS[kind]);
    put(m, name);
    put(m, CLOSES[kind]);
}

static void body(struct maker *m, size_t parameters)
{
    int is_open = once_in(m, 10), sees_locals = once_in(m, 12);
    m->leaves = sees_locals ? LOCALS : GLOBALS;
    m->leaf_count = sees_locals ? COUNT_OF(LOCALS) : COUNT_OF(GLOBALS);
    put(m, is_open ? "" : "(");
    for (size_t number = 0; number < parameters; number++) {
        if (number > 0) {
            gap(m);
            put(m, ANY(m, OPERATORS));
            gap(m);
        }
        operand(m, PARAMETERS[number]);
    }
    if (parameters == 0 || once_in(m, 3)) {
        put(m, parameters > 0 ? " + " : "");
        expression(m, 1 + (parameters == 0));
    }
    put(m, is_open ? "" : ")");
    m->leaves = LOCALS;
    m->leaf_count = COUNT_OF(LOCALS);
}

/* One of some bodies of a macro that isn't made by `body`. */
struct form {
    enum shape shape;
    size_t parameters;
    const char *body;
};

static const struct form FORMS[] = {
    { VALUE, 0, "1u" }, { VALUE, 0, "10L" }, { VALUE, 0, "count" }, { VALUE, 0, "row[1]" }, { VALUE, 0, "next()" }, { VALUE, 0, "(one.m)" },
    { VALUE, 0, "k" }, { VALUE, 0, "(q->m + a)" }, { VALUE, 0, "-1" }, { VALUE, 0, "*\"text\"" }, { VALUE, 0, "(1u << 3)" },
    { VALUE, 0, "0xffffffff" }, { VALUE, 0, "__LINE__" }, { VALUE, 0, "g" }, { POINTER, 1, "((x)->m)" }, { POINTER, 1, "((x)->n[1])" },
    { POINTER, 1, "(*(x)).m" }, { POINTER, 1, "((x) == 0)" }, { POINTER, 1, "((x)->next == (x)->next)" }, { STORE, 2, "((x) = (y))" },
    { STORE, 1, "((x)++)" }, { STORE, 2, "((x) += (y))" }, { STORE, 1, "(*&(x))" }, { STORE, 1, "((int)sizeof (x))" },
    { LAZY, 2, "((x) && (y))" }, { LAZY, 2, "((x) || (y))" }, { LAZY, 3, "((x) ? (y) : (z))" }, { LAZY, 2, "((x) < (y) ? (x) : (y))" },
    { LAZY, 2, "((x), (y))" }, { LAZY, 1, "(next() + (x))" }, { TEXT, 1, "#x" }, { TEXT, 1, "\"a\" #x" }, { TEXT, 2, "# x \"b\" #y" },
    { PASTE, 2, "x ## y" }, { PASTE, 2, "x##y" }, { PASTE, 2, "(x %:%: y)" }, { VARIADIC, 2, "f0(__VA_ARGS__)" },
    { VARIADIC, 2, "next(), __VA_ARGS__" }, { TYPE, 0, "int" }, { TYPE, 0, "unsigned int" }, { TYPE, 0, "const int" }, { EMPTY, 0, "" },
    { EMPTY, 0, "/* nothing */" }, { EMPTY, 0, "1 +" }, { PIECE, 0, "(1 +" }, { PIECE, 0, "(" }, { LIST, 1, "x(1) + x(2) +" },
    { LIST, 1, "x(1) x(2)" }, { STATEMENT, 1, "do { count = (x); } while (0)" }, { STATEMENT, 1, "if (x) count++" },
    { STATEMENT, 1, "{ int t = (x); row[0] = t; }" }, { STATEMENT, 1, "putchar(x)" }, { STATEMENT, 1, "return (x)" },
};

static struct macro *new_macro(struct maker *m)
{
    struct macro *macro = &m->macros[m->macro_count];
    memset(macro, 0, sizeof *macro);
    macro->name[0] = 'M';
    macro->name[1] = (char)('A' + m->macro_count);
    return macro;
}

/* The head of a definition, to the space before its body. */
static void define(struct maker *m, const struct macro *macro, int is_called)
{
    static const char *const HASHES[] = { "#", "# ", " #", "%:", "?\?=", "#/**/" };
    put(m, m->spreads && once_in(m, 6) ? ANY(m, HASHES) : "#");
    put(m, "define");
    gap(m);
    put(m, macro->name);
    if (is_called) {
        put(m, "(");
        for (size_t number = 0; number < macro->parameters && macro->shape != VARIADIC; number++) {
            put(m, number > 0 ? ", " : "");
            put(m, PARAMETERS[number]);
        }
        put(m, macro->shape == VARIADIC ? "...)" : ")");
    }
    gap(m);
}

static void define_form(struct maker *m, struct macro *macro)
{
    const struct form *form = &FORMS[chosen(m, COUNT_OF(FORMS))];
    macro->shape = form->shape;
    macro->parameters = form->parameters;
    macro->target = m->macro_count > 0 ? chosen(m, m->macro_count) : 0;
    define(m, macro, form->parameters > 0);
    put(m, form->body);
}

static void define_alias(struct maker *m, struct macro *macro)
{
    macro->target = chosen(m, m->macro_count);
    const struct macro *target = &m->macros[macro->target];
    int is_alias = target->shape == EXPRESSION || target->shape == CONSTANT || target->shape == VALUE;
    macro->shape = is_alias ? ALIAS : STATEMENT;
    macro->is_constant = is_alias && target->is_constant;
    define(m, macro, 0);
    put(m, target->name);
}

static void define_expression(struct maker *m, struct macro *macro)
{
    int is_called = once_in(m, 3) || once_in(m, 3);
    macro->shape = is_called ? EXPRESSION : CONSTANT;
    macro->parameters = is_called ? chosen(m, 4) : 0;
    define(m, macro, is_called);
    m->was_constant = 1;
    m->wants_constant = !is_called || once_in(m, 2);
    body(m, macro->parameters);
    m->wants_constant = 0;
    macro->is_constant = m->was_constant;
}

/* A definition, which a later one may use. */
static void define_some(struct maker *m)
{
    if (m->macro_count == MOST_MACROS)
        return;
    struct macro *macro = new_macro(m);
    if (m->macro_count > 0 && once_in(m, 14))
        define_alias(m, macro);
    else if (once_in(m, 3))
        define_form(m, macro);
    else
        define_expression(m, macro);
    put(m, m->spreads && once_in(m, 8) ? " // c\n" : "\n");
    m->macro_count++;
}

/* A definition in each branch of a condition, or another object. */
static void condition(struct maker *m)
{
    static const char *const TESTS[] = { "#if ", "#if 1 + ", "#if !", "#ifdef D\n#elif ", "#if defined D && ", "#ifndef D\n#elif 0\n#elif " };
    put(m, ANY(m, TESTS));
    constant(m);
    put(m, "\n#define C");
    put_number(m, m->object_count);
    put(m, " 1\n#else\n");
    put(m, once_in(m, 4) ? "#error no\n" : "");
    put(m, "#define C");
    put_number(m, m->object_count);
    put(m, " 2\n#endif\nstatic int c");
    put_number(m, m->object_count);
    put(m, " = C");
    put_number(m, m->object_count++);
    put(m, ";\n");
}

static void object(struct maker *m)
{
    static const char *const HEADS[] = { "static int t", "enum { e", "int o", "static const int d", "static unsigned char h", "typedef int w" };
    static const char *const MIDDLES[] = { "[1 + (7 & ", " = 1 + (", " = ", " = (", "[2] = { 1, (", "[1 + (3 & " };
    static const char *const ENDS[] = { ")];\n", ") };\n", ";\n", ");\n", ") };\n", ")];\n" };
    size_t kind = chosen(m, COUNT_OF(HEADS));
    put(m, HEADS[kind]);
    put_number(m, m->object_count++);
    put(m, MIDDLES[kind]);
    constant(m);
    put(m, ENDS[kind]);
}

static void statement(struct maker *m, size_t depth);

static void expression_statement(struct maker *m)
{
    static const char *const STARTS[] = { "k = ", "i += ", "row[1] = ", "count = ", "(void)", "", "q->m = ", "putchar(", "return " };
    const char *start = ANY(m, STARTS);
    put(m, start);
    expression(m, MOST_DEPTH);
    put(m, start[0] == 'p' ? ");\n" : ";\n");
}

static void macro_statement(struct maker *m)
{
    for (size_t number = 0; number < m->macro_count; number++) {
        const struct macro *macro = &m->macros[(number + m->function_count) % m->macro_count];
        if (macro->shape == STATEMENT && macro->parameters == 1) {
            put(m, macro->name);
            arguments(m, 1, 1);
            put(m, ";\n");
            return;
        }
    }
    expression_statement(m);
}

static void switched(struct maker *m, size_t depth)
{
    put(m, "switch (");
    expression(m, 1);
    put(m, ") { case ");
    constant(m);
    put(m, ": ");
    statement(m, depth);
    put(m, "break; default: ");
    statement(m, depth);
    put(m, "}\n");
}

/* A statement that holds others. */
static void compound(struct maker *m, size_t depth)
{
    static const char *const HEADS[] = {
        "if (", "while (i++ < 2 && ", "{ int x = ", "for (i = 0; i < 2; i++) if (", "{ int count = ", "{ int k = 1, MA = ", "if (!",
    };
    static const char *const MIDDLES[] = { ") ", ") ", "; count = x; ", ") ", "; ", "; ", ") " };
    static const char *const ENDS[] = { "", "", "}\n", "", "}\n", "}\n", "" };
    size_t kind = chosen(m, m->mixes ? COUNT_OF(HEADS) : 5);
    put(m, HEADS[kind]);
    expression(m, 2);
    put(m, MIDDLES[kind]);
    statement(m, depth);
    put(m, ENDS[kind]);
}

static void statement(struct maker *m, size_t depth)
{
    if (m->mixes && once_in(m, 16))
        put(m, "\n"), define_some(m);
    if (depth == 0 || once_in(m, 2))
        expression_statement(m);
    else if (once_in(m, 3))
        macro_statement(m);
    else if (once_in(m, 5))
        switched(m, depth - 1);
    else
        compound(m, depth - 1);
}

static void function(struct maker *m, int is_main)
{
    if (is_main) {
        put(m, "int main(void) { int a = 1, b = 2, ");
    } else {
        put(m, once_in(m, 2) ? "static int f" : "int f");
        put_number(m, m->function_count);
        put(m, "(int a, int b) { int ");
    }
    put(m, "i = 0, k = 3; int *p = row; struct s *q = &one;");
    put(m, m->mixes ? " unsigned int u = 4u; long l = 5; char c = 'c';\n" : "\n");
    for (size_t left = chosen(m, 3) + is_main; left > 0; left--)
        statement(m, 2);
    put(m, "return ");
    expression(m, MOST_DEPTH);
    put(m, "; }\n");
    m->function_count += !is_main;
}

/* A name is taken back, or defined once more. */
static void define_again(struct maker *m)
{
    static const char *const HEADS[] = { "#undef ", "#ifdef ", "#define ", "#undef " };
    static const char *const TAILS[] = { "\n", "\nint yes;\n#endif\n", " 1\n", " // gone\n" };
    if (m->macro_count == 0)
        return;
    size_t kind = chosen(m, COUNT_OF(HEADS));
    size_t number = chosen(m, m->macro_count);
    put(m, HEADS[kind]);
    put(m, m->macros[number].name);
    put(m, TAILS[kind]);
    if (HEADS[kind][1] == 'u') {
        put(m, "#define ");
        put(m, m->macros[number].name);
        put(m, m->macros[number].parameters > 0 ? "(...) 1\n" : " 2\n");
    }
}

/* A member with the name of a macro that is defined further down, or of one that has parameters. */
static void member(struct maker *m)
{
    size_t number = chosen(m, m->macro_count + 2);
    if (number < m->macro_count && m->macros[number].parameters == 0)
        number = m->macro_count;
    char name[] = { 'M', (char)('A' + number), '\0' };
    put(m, "struct n");
    put_number(m, m->object_count++);
    put(m, " { int ");
    put(m, name);
    put(m, "; };\n");
}

/* Something that may stand between two functions. */
static void item(struct maker *m)
{
    switch (chosen(m, 24)) {
    case 0: case 1: object(m); break;
    case 2: condition(m); break;
    case 3: define_again(m); break;
    case 4: member(m); break;
    case 5: case 6: case 7: case 8: case 9: case 10: case 11: case 12: case 13: define_some(m); break;
    default: function(m, 0); break;
    }
}

static const char BASE[] =
    "int putchar(int c);\nstruct s { int m; int n[4]; struct s *next; };\n"
    "static int row[4] = { 1, 2, 3, 4 };\nint count;\nstatic const int g = 6;\nstatic struct s one = { 1, { 2, 3, 4, 5 }, &one };\n"
    "static int next(void) { return count++; }\nstatic int f0(int a, int b) { return a - b; }\n";

static void header(struct maker *m)
{
    int is_guarded = once_in(m, 2);
    put(m, is_guarded ? "#ifndef H_H\n#define H_H\n" : "#pragma once\n");
    put(m, once_in(m, 30) ? "" : BASE);
    m->function_count = 1;
    for (size_t left = chosen(m, 5); left > 0; left--)
        define_some(m);
    put(m, is_guarded ? "#endif\n" : "");
}

static void unit(struct maker *m, int has_main)
{
    static const char *const INCLUDES[] = {
        "#include \"h.h\"\n#include <stdio.h>\n", "#include \"h.h\"\n#include \"h.h\"\n", "#include <h.h>\n",
        "#define H \"h.h\"\n#include H\n", "#include \"d.h\"\n", "#include \"no.h\"\n",
    };
    put(m, once_in(m, 8) ? ANY(m, INCLUDES) : "#include \"h.h\"\n");
    for (size_t left = chosen(m, 7); left > 0; left--)
        item(m);
    if (has_main)
        function(m, 1);
}


void make_program(struct chance *chance, struct files *files)
{
    struct maker maker = { .chance = chance, .leaves = LOCALS, .leaf_count = COUNT_OF(LOCALS) };
    maker.stores = one_in(chance, 3);
    maker.mixes = one_in(chance, 3);
    maker.spreads = one_in(chance, 3);
    maker.to = new_file(files, "h.h");
    header(&maker);
    struct maker other = maker;
    maker.to = new_file(files, "a.c");
    unit(&maker, 1);
    other.to = new_file(files, "b.c");
    unit(&other, 0);
}
