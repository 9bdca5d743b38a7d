/* Reads a C text of the subset of docs/C.md and writes the same program with its checks in it: each statement says its
 * number, each variable, cell and operator asks what it needs, and loops and calls spend fuel. The result includes
 * vault_check.h, where these are defined.
 *
 * The text has to be one that `vaultc verify` or `vaultc crun` takes: of others this says where it lost its way, or writes
 * what no compiler takes. */

#include <stdbool.h>
#include <stdio.h>
#include <stdlib.h>
#include <string.h>

struct token {
    const char *at;
    int length;
};

static const char *text;
static struct token token;   /* the next one; at the end it has no length */
static long long statements; /* how many were written */

/* ---- tokens */

static bool is_word_character(char character)
{
    return character == '_' || (character >= '0' && character <= '9') || (character >= 'A' && character <= 'Z')
        || (character >= 'a' && character <= 'z');
}

static int length_at(const char *at)
{
    static const char *const pairs[] = {"->", "<=", ">=", "==", "!=", "&&", "||"};
    int length = 0;
    while (is_word_character(at[length])) {
        length++;
    }
    if (length > 0 || *at == '\0') {
        return length;
    }
    if (*at == '"') {
        const char *end = strchr(at + 1, '"');
        return end == NULL ? 1 : (int) (end - at) + 1;
    }
    for (size_t i = 0; i < sizeof pairs / sizeof *pairs; i++) {
        if (strncmp(at, pairs[i], 2) == 0) {
            return 2;
        }
    }
    return 1;
}

/* A certificate ends the program. */
static void go_to(const char *at)
{
    at += strspn(at, " \n");
    token.at = at;
    token.length = strncmp(at, "/*VAULT-CERT\n", 13) == 0 ? 0 : length_at(at);
}

static void advance(void)
{
    go_to(token.at + token.length);
}

static bool is(struct token found, const char *word)
{
    return found.length == (int) strlen(word) && strncmp(found.at, word, (size_t) found.length) == 0;
}

static bool is_next(const char *word)
{
    return is(token, word);
}

/* Whether the next token is this one, or there is none, so that a loop up to it ends. */
static bool is_at(const char *word)
{
    return is_next(word) || token.length == 0;
}

static void expect(const char *word)
{
    if (!is_next(word)) {
        int line = 1;
        for (const char *at = text; at < token.at; at++) {
            line += *at == '\n';
        }
        fprintf(stderr, "instrument: line %d: %s was to come\n", line, word);
        exit(EXIT_FAILURE);
    }
    advance();
}

/* Whether it is a name of this letter and a number, as `n0`. */
static bool is_named(struct token found, char letter)
{
    return found.length > 1 && found.at[0] == letter && found.at[1] >= '0' && found.at[1] <= '9';
}

static bool is_variable(void)
{
    return is_named(token, 'n') || is_named(token, 'p');
}

static struct token taken(void)
{
    struct token found = token;
    advance();
    return found;
}

static void write_token(struct token written)
{
    printf("%.*s", written.length, written.at);
}

/* ---- expressions, each written as one that asks for what it reads, the left operand first */

static const struct operator {
    const char *sign;
    const char *function;
} functions[] = {{"+", "vr_add"}, {"-", "vr_subtract"}, {"*", "vr_multiply"}, {"/", "vr_divide"}, {"%", "vr_remainder"}};

/* The function that an operator has, or nothing. */
static const char *function_of(struct token sign)
{
    for (size_t i = 0; i < sizeof functions / sizeof *functions; i++) {
        if (sign.length == 1 && *sign.at == *functions[i].sign) {
            return functions[i].function;
        }
    }
    return NULL;
}

/* Asks whether the variable was set. */
static void write_requirement(struct token variable)
{
    printf("VR_REQUIRE(5, set_%.*s)", variable.length, variable.at);
}

static void write_read(struct token variable)
{
    putchar('(');
    write_requirement(variable);
    printf(", %.*s)", variable.length, variable.at);
}

/* After `->`. */
static struct token index_in_cell(bool *is_reference)
{
    struct token index;
    *is_reference = is_next("r");
    advance();
    expect("[");
    index = taken();
    expect("]");
    return index;
}

static void expression(int depth);

/* After `(`. The left value is kept in `left`, since C doesn't say which argument of a call is evaluated first. */
static void operation(int depth)
{
    if (is_next("-") || is_next("!")) {
        fputs(*taken().at == '-' ? "vr_negate(" : "!(", stdout);
        expression(depth + 1);
        putchar(')');
    } else {
        struct token sign;
        const char *function;
        printf("(left[%d] = ", depth);
        expression(depth + 1);
        sign = taken();
        function = function_of(sign);
        if (function != NULL) {
            printf(", %s(left[%d], ", function, depth);
        } else {
            printf(", (left[%d] %.*s ", depth, sign.length, sign.at);
        }
        expression(depth + 1);
        fputs("))", stdout);
    }
    expect(")");
}

static void expression(int depth)
{
    if (is_next("(")) {
        advance();
        operation(depth);
    } else if (is_variable()) {
        struct token variable = taken();
        if (is_next("->")) {
            bool is_reference;
            struct token index;
            advance();
            index = index_in_cell(&is_reference);
            fputs(is_reference ? "vr_load_r(" : "vr_load_n(", stdout);
            write_read(variable);
            printf(", %.*s)", index.length, index.at);
        } else {
            write_read(variable);
        }
    } else {
        write_token(taken());
    }
}

/* ---- statements */

/* Asks whether the arguments are set, from the `(` on, and goes back to it. */
static void write_requirements(void)
{
    const char *arguments = token.at;
    while (!is_at(")")) {
        if (is_variable()) {
            write_requirement(token);
            fputs("; ", stdout);
        }
        advance();
    }
    go_to(arguments);
}

static void write_up_to(const char *end)
{
    while (!is_at(end)) {
        write_token(taken());
    }
    expect(end);
}

/* From the `(` of a call on; the target is a variable, or of no length. */
static void call(struct token target, struct token callee)
{
    bool is_function = is_named(callee, 'f');
    bool is_glue = is_named(callee, 'e');
    write_requirements();
    if (is_function || is_glue) {
        fputs("vr_spend(); ", stdout);
    }
    if (is_function) {
        fputs("vr_enter(); ", stdout);
    }
    if (target.length > 0) {
        printf("%.*s = ", target.length, target.at);
    }
    write_token(callee);
    write_up_to(";");
    fputs("; ", stdout);
    if (is_function) {
        fputs("vr_leave(); ", stdout);
    }
    if (target.length > 0) {
        printf("set_%.*s = true;", target.length, target.at);
    }
}

/* After `->`. The base is read first, then the right side, and then the cell is written. */
static void store(struct token base)
{
    bool is_reference;
    struct token index = index_in_cell(&is_reference);
    expect("=");
    write_requirement(base);
    printf("; vr_store_%c(%.*s, %.*s, ", is_reference ? 'r' : 'n', base.length, base.at, index.length, index.at);
    expression(0);
    expect(";");
    fputs(");", stdout);
}

/* After `=`. */
static void assignment(struct token target)
{
    struct token first = taken();
    if (is_next("(") && !is(first, "(")) {
        call(target, first);
        return;
    }
    go_to(first.at);
    printf("%.*s = ", target.length, target.at);
    expression(0);
    expect(";");
    printf("; set_%.*s = true;", target.length, target.at);
}

static void block(void);

static void choice(void)
{
    expect("(");
    fputs("if (", stdout);
    expression(0);
    expect(")");
    fputs(") {\n", stdout);
    block();
    if (is_next("else")) {
        advance();
        fputs("} else {\n", stdout);
        block();
    }
    putchar('}');
}

static void loop(void)
{
    expect("(");
    expect("1");
    expect(")");
    fputs("while (1) {\nvr_spend();\n", stdout);
    block();
    putchar('}');
}

static void returning(void)
{
    fputs("return ", stdout);
    if (!is_next(";")) {
        expression(0);
    }
    expect(";");
    putchar(';');
}

static void statement(void)
{
    struct token first = taken();
    printf("vr_at(%lld); ", statements++);
    if (is(first, "if")) {
        choice();
    } else if (is(first, "while")) {
        loop();
    } else if (is(first, "return")) {
        returning();
    } else if (is_next("=")) {
        advance();
        assignment(first);
    } else if (is_next("->")) {
        advance();
        store(first);
    } else if (is_next("(")) {
        call((struct token) {first.at, 0}, first);
    } else {
        write_token(first); /* break or continue */
        expect(";");
        putchar(';');
    }
    putchar('\n');
}

static void statements_up_to_brace(void)
{
    while (!is_at("}")) {
        statement();
    }
    expect("}");
}

static void block(void)
{
    expect("{");
    statements_up_to_brace();
}

/* ---- declarations and functions */

static void write_mark(struct token variable, bool is_set)
{
    printf("bool set_%.*s = %s;\n", variable.length, variable.at, is_set ? "true" : "false");
}

static void declarations(void)
{
    while (is_next("long") || is_next("vr_ref")) {
        bool is_reference = is_next("vr_ref");
        struct token variable;
        advance();
        if (!is_reference) {
            expect("long");
        }
        variable = taken();
        fputs(is_reference ? "vr_ref " : "long long ", stdout);
        write_token(variable);
        fputs(is_reference ? " = vr_null; " : " = 0; ", stdout);
        write_mark(variable, false);
        expect(";");
    }
}

/* Up to the `;` or the `{` after a head; the name that it declares. */
static struct token name_in_head(void)
{
    struct token name = token;
    while (!is_at("(")) {
        name = taken();
    }
    while (!is_at(";") && !is_next("{")) {
        advance();
    }
    return name;
}

/* From the beginning of a head on: the head, and its parameters as variables that are set. */
static void write_head(void)
{
    const char *from = token.at;
    while (!is_next(";") && !is_next("{")) {
        write_token(taken());
        putchar(' ');
    }
    if (is_next(";")) {
        fputs(";\n", stdout);
        return;
    }
    fputs("{\nlong long left[16];\n", stdout);
    for (go_to(from); !is_next("{"); advance()) {
        if (is_variable()) {
            write_mark(token, true);
        }
    }
}

/* The `;` of a head, or a body. */
static void skip_rest(void)
{
    int open = 0;
    do {
        open += is_next("{") - is_next("}");
        advance();
    } while (open > 0 && token.length > 0);
}

/* A head without a body, which is written with glue; or a head and its body, written with those of its letter. */
static void function(char letter)
{
    const char *from = token.at;
    bool gives_value = !is_next("void");
    struct token name = name_in_head();
    bool has_body = is_next("{");
    if (has_body ? !is_named(name, letter) : letter != 'e') {
        skip_rest();
        return;
    }
    go_to(from);
    write_head();
    if (!has_body) {
        skip_rest();
        return;
    }
    expect("{");
    declarations();
    statements_up_to_brace();
    fputs(gives_value ? "vr_no_value();\n}\n" : "}\n", stdout);
}

/* ---- files */

static char *read_file(FILE *file)
{
    size_t room = 1 << 16;
    size_t length = 0;
    char *bytes = malloc(room + 1);
    while (bytes != NULL) {
        length += fread(bytes + length, 1, room - length, file);
        if (length < room) {
            bytes[length] = '\0';
            return bytes;
        }
        room *= 2;
        bytes = realloc(bytes, room + 1);
    }
    fputs("instrument: out of memory\n", stderr);
    exit(EXIT_FAILURE);
}

int main(void)
{
    static const char first_lines[] = "#include \"vault_rt.h\"\n#define VR_MAIN f";
    char *bytes = read_file(stdin);
    const char *functions_from;
    text = bytes;
    if (strncmp(text, first_lines, sizeof first_lines - 1) != 0) {
        fputs("instrument: no text of the subset\n", stderr);
        return EXIT_FAILURE;
    }
    go_to(text + sizeof first_lines - 1);
    printf("#include \"vault_check.h\"\n#define VR_MAIN f%.*s\n", token.length, token.at);
    advance();
    /* Statements are counted over the bodies of glue first. */
    functions_from = token.at;
    for (const char *letter = "ef"; *letter != '\0'; letter++) {
        go_to(functions_from);
        while (token.length > 0) {
            function(*letter);
        }
    }
    printf("const long long vr_statement_count = %lld;\n", statements);
    free(bytes);
    return fflush(stdout) == 0 && !ferror(stdout) ? EXIT_SUCCESS : EXIT_FAILURE;
}
