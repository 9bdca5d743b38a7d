// The grammar of docs/LANGUAGE.md for tree-sitter. Its rules have the names that they have there.
const listed = (rule) => seq(rule, repeat(seq(",", rule)));
const maybeListed = (rule) => optional(listed(rule));

// operators by how tightly they bind, the loosest first; all group to the left
const LEVELS = [["||"], ["&&"], ["|"], ["^"], ["&"], ["==", "!="], ["<", "<=", ">", ">="], ["+", "-"], ["*", "/", "%"]];

module.exports = grammar({
  name: "vault",
  extras: ($) => [/[ \t\r\n]/, $.comment],
  word: ($) => $.name,
  supertypes: ($) => [$._declaration, $._statement, $._expression],

  rules: {
    file: ($) => repeat($._declaration),

    // ---- declarations

    _declaration: ($) => choice($.state_set, $.abstract, $.struct, $.variant, $.external, $.function),
    state_set: ($) => seq("stateset", field("name", $.name), "{", listed($.chain), "}"),
    chain: ($) => seq($.state, repeat(seq("<", $.state))),
    abstract: ($) => seq("abstract", field("name", $.name), optional(seq("@", field("states", $.name))), ";"),
    struct: ($) =>
      seq(
        "struct",
        field("name", $.name),
        optional($.header),
        optional(seq("@", field("states", $.name))),
        "{",
        repeat($.field),
        optional($.release_set),
        "}",
      ),
    release_set: ($) => seq("release", $.states, ";"),
    variant: ($) => seq("variant", field("name", $.name), optional($.header), "{", listed($.case), "}"),
    external: ($) => seq("extern", $.head, ";"),
    function: ($) => seq($.head, field("body", $.block)),

    header: ($) => seq("<", listed($.parameter_key), ">"),
    parameter_key: ($) => seq($.key_name, optional(seq(":", field("type", $.type_name)))),
    field: ($) => seq($._type, field("name", $.name), optional(seq("@", $.states)), ";"),
    case: ($) => seq($.tick, optional(seq("(", listed($._type), ")")), optional(seq("{", listed($.key), "}"))),
    head: ($) =>
      seq(field("result", choice("void", $._type)), field("name", $.name), "(", maybeListed($.parameter), ")", optional($.clause)),
    parameter: ($) => seq($._type, field("name", $.name)),
    clause: ($) => seq("[", maybeListed($.entry), "]"),
    entry: ($) =>
      choice(
        seq($.key_name, optional(seq("@", choice(seq($.states, optional(seq("->", $.states))), $.bound)))),
        seq(choice("-", "+", "new"), $.key),
      ),
    bound: ($) => seq("(", field("variable", $.name), "<=", field("most", $.state), ")"),
    key: ($) => seq($.key_name, optional(seq("@", $.states))),
    states: ($) => choice($.state, seq("{", listed($.state), "}")),

    // ---- types

    _type: ($) => choice($.plain_type, $.held_type, $.owned_type, $.guarded_type, $.named_type),
    plain_type: () => choice("int", "bool"),
    held_type: ($) => seq("tracked", "(", $.key_name, ")", $.named_type),
    owned_type: ($) => seq("tracked", optional(seq("@", $.states)), $.named_type),
    guarded_type: ($) => seq($.key_name, ":", $.named_type),
    named_type: ($) => seq($.type_name, optional(seq("<", listed($.key_name), ">"))),

    // ---- statements

    block: ($) => seq("{", repeat($._statement), "}"),
    _statement: ($) =>
      choice(
        $.declare, $.assign, $.set_field, $.call_statement, $.print, $.block, $.choice, $.while, $.break, $.continue, $.return, $.switch,
        $.release, $.become, $.swap, $.open, $.focus,
      ),
    declare: ($) => seq($._type, field("name", $.name), "=", field("value", $._right), ";"),
    assign: ($) => seq(field("name", $.variable), "=", field("value", $._right), ";"),
    set_field: ($) => seq($.variable, ".", field("member", $.member), "=", field("value", $._expression), ";"),
    call_statement: ($) => seq($.call, ";"),
    print: ($) => seq("print", "(", $._expression, ")", ";"),
    choice: ($) => seq("if", "(", field("condition", $._expression), ")", $.block, optional(seq("else", choice($.block, $.choice)))),
    while: ($) => seq("while", "(", field("condition", $._expression), ")", $.block),
    break: () => seq("break", ";"),
    continue: () => seq("continue", ";"),
    return: ($) => seq("return", optional(choice($._expression, $.build)), ";"),
    switch: ($) => seq("switch", "(", $.variable, ")", "{", repeat1($.arm), "}"),
    arm: ($) => seq("case", $.tick, optional(seq("(", listed($.name), ")")), ":", $.block),
    release: ($) => seq("release", $.variable, ";"),
    become: ($) => seq("become", $.variable, "@", $.state, ";"),
    swap: ($) => seq("swap", $.variable, ".", $.member, ",", $.variable, ";"),
    open: ($) => seq("open", $.variable, "into", "(", listed($.name), ")", ";"),
    focus: ($) => seq("focus", $.variable, "as", "tracked", "(", $.key_name, ")", field("name", $.name), $.block),

    _right: ($) => choice($._expression, $.build, $.call, $.read, $.new, $.adopt),
    read: () => seq(choice("input", "more"), "(", ")"),
    new: ($) => seq("new", optional(seq("(", field("owner", $.variable), ")")), $.named_type, "{", maybeListed($.value), "}"),
    value: ($) => seq(field("member", $.member), ":", $._expression),
    adopt: ($) => seq("adopt", $.variable, "into", $.variable),
    build: ($) => seq($.tick, optional(seq("(", listed($._expression), ")"))),
    call: ($) => seq(field("function", $.name), "(", maybeListed($._expression), ")"),

    // ---- expressions

    _expression: ($) => choice($.operation, $.number, $.boolean, $.variable, $.field_access, $.group, $.sign),
    operation: ($) =>
      choice(
        ...LEVELS.map((signs, level) =>
          prec.left(level + 1, seq(field("left", $._expression), field("operator", choice(...signs)), field("right", $._expression))),
        ),
      ),
    boolean: () => choice("true", "false"),
    field_access: ($) => seq($.variable, ".", field("member", $.member)),
    group: ($) => seq("(", $._expression, ")"),
    sign: ($) => prec(LEVELS.length + 1, seq(choice("-", "!"), $._expression)),

    // ---- names, by what they stand for

    state: ($) => $.name,
    key_name: ($) => $.name,
    type_name: ($) => $.name,
    variable: ($) => $.name,
    member: ($) => $.name,

    name: () => /[_\p{XID_Start}]\p{XID_Continue}*/,
    tick: () => /'[_\p{XID_Start}]\p{XID_Continue}*/,
    number: () => /[0-9]+/,
    comment: () => token(choice(/\/\/[^\n]*/, /\/\*([^*]|\*+[^*/])*\*+\//)),
  },
});
