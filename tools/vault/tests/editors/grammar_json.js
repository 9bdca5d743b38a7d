// Writes the JSON of a tree-sitter grammar, as `tree-sitter generate` does before it makes a parser: node grammar_json.js GRAMMAR.js
const path = require("path");

const normal = (rule) => {
  if (rule === undefined) throw new Error("a rule is undefined");
  if (typeof rule === "string") return { type: "STRING", value: rule };
  if (rule instanceof RegExp) return { type: "PATTERN", value: rule.source };
  return rule;
};
const precedence = (type) => {
  const make = (value, rule) => (rule === undefined ? make(0, value) : { type, value, content: normal(rule) });
  return make;
};

global.seq = (...rules) => ({ type: "SEQ", members: rules.map(normal) });
global.choice = (...rules) => ({ type: "CHOICE", members: rules.map(normal) });
global.optional = (rule) => global.choice(rule, { type: "BLANK" });
global.repeat = (rule) => ({ type: "REPEAT", content: normal(rule) });
global.repeat1 = (rule) => ({ type: "REPEAT1", content: normal(rule) });
global.field = (name, rule) => ({ type: "FIELD", name, content: normal(rule) });
global.token = (rule) => ({ type: "TOKEN", content: normal(rule) });
global.prec = precedence("PREC");
global.prec.left = precedence("PREC_LEFT");
global.prec.right = precedence("PREC_RIGHT");
global.grammar = (options) => {
  const names = Object.keys(options.rules);
  const $ = {};
  for (const name of names) $[name] = { type: "SYMBOL", name };
  const strict = new Proxy($, {
    get: (all, name) => {
      if (!(name in all)) throw new Error(`there is no rule ${String(name)}`);
      return all[name];
    },
  });
  const made = (list) => (list ? list(strict).map(normal) : []);
  return {
    name: options.name,
    word: options.word ? options.word(strict).name : null,
    rules: Object.fromEntries(names.map((name) => [name, normal(options.rules[name](strict))])),
    extras: made(options.extras),
    conflicts: options.conflicts ? options.conflicts(strict).map((some) => some.map((one) => one.name)) : [],
    precedences: [],
    externals: made(options.externals),
    inline: options.inline ? options.inline(strict).map((one) => one.name) : [],
    supertypes: options.supertypes ? options.supertypes(strict).map((one) => one.name) : [],
  };
};

process.stdout.write(JSON.stringify(require(path.resolve(process.argv[2])), null, 2) + "\n");
