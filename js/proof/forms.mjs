// Reads modules, and writes their functions so that each operator, condition, read, store and call is a call of a rule.
import {createRequire} from 'node:module';

const require = createRequire(import.meta.url);
const { parse } = require('/usr/share/nodejs/acorn');
const { full, fullAncestor } = require('/usr/share/nodejs/acorn-walk');

// What each form becomes. In braces are the place for messages, and the parts of the form.
const FORMS = {
  Identifier: '{name}',
  Literal: '{raw}',
  BinaryExpression: "$.binary({at}, '{operator}', {left}, {right})",
  UnaryExpression: "$.unary({at}, '{operator}', {argument})",
  'LogicalExpression &&': '$.and({at}, {left}, () => {right})',
  'LogicalExpression ||': '$.or({at}, {left}, () => {right})',
  ConditionalExpression: '($.holds({at}, {test}) ? {consequent} : {alternate})',
  'MemberExpression .': "$.member({at}, {object}, '{property}')",
  'MemberExpression []': '$.read({at}, {object}, {property})',
  ArrayExpression: '[{elements}]',
  SpreadElement: '...{argument}',
  NewExpression: '$.create({at}, {callee}, {arguments})',
  'CallExpression Identifier': '$.call({at}, {callee}, undefined, {arguments})',
  'CallExpression MemberExpression': "$.method({at}, {callee.object}, '{callee.property}', {arguments})",
  'AssignmentExpression = Identifier': '({left} = {right})',
  'AssignmentExpression = []': '$.store({at}, {left.object}, {left.property}, {right})',
  UpdateExpression: "({argument} = $.binary({at}, '{operator}'[0], {argument}, 1), $.unused)",
  VariableDeclaration: '{kind} {declarations};',
  VariableDeclarator: '{id} = {init}',
  ArrowFunctionExpression: '({params}) => {body}',
  ArrayPattern: '[{elements}]',
  AssignmentPattern: '{left} = {right}',
  ExpressionStatement: '{expression};',
  BlockStatement: '{ {body} }',
  ReturnStatement: 'return {argument};',
  ThrowStatement: 'throw $.thrown;',
  IfStatement: 'if ($.holds({at}, {test})) {consequent} else { {alternate} }',
  WhileStatement: 'while ($.holds({at}, {test})) {body}',
  ForStatement: '{ {init}; for (; $.holds({at}, {test}); {update}) {body} }'
};

// What tells forms of one type apart.
const kindOf = ({ type, computed }) => (computed ? '[]' : type);
const VARIANTS = {
  AssignmentExpression: ({ operator, left }) => `${operator} ${kindOf(left)}`,
  CallExpression: ({ callee }) => kindOf(callee),
  LogicalExpression: ({ operator }) => operator,
  MemberExpression: ({ computed }) => (computed ? '[]' : '.')
};

const placeOf = ({ loc, sourceFile: [file] }) => `${file}:${loc.start.line}`;
function refuse(node) { throw new Error(`${placeOf(node)}: no rule for this`); }

// The one function of the language that has a name in the modules.
const CHAR_CODE_AT = "''.charCodeAt.call.bind(''.charCodeAt)";

// A form without a line above is an error where it runs. A part that is absent is empty.
function formOf(node) {
  if (!node) return '';
  const { type, start, end, sourceFile: [, source] } = node;
  const text = source.slice(start, end);
  if (text === CHAR_CODE_AT) return '$.charCodeAt';
  const at = JSON.stringify([placeOf(node), text.split('\n')[0].slice(0, 80)]);
  const form = FORMS[VARIANTS[type] ? `${type} ${VARIANTS[type](node)}` : type];
  if (form === undefined) return `$.fail(${at})${type.endsWith('Statement') ? ';' : ''}`;
  return form.replace(/\{(\w+)(?:\.(\w+))?\}/g, (all, name, part) => {
    const value = name === 'at' ? at : part ? node[name][part] : node[name];
    if (Array.isArray(value)) return value.map(formOf).join(name === 'body' ? ' ' : ', ');
    return typeof value === 'string' ? value : formOf(value);
  });
}

const isFunction = (init) => init !== undefined && /Function/.test(init.type);

// A function, or a value that is computed once. Without a form of its own it is not known.
function declarationOf([name, init]) {
  const { params, body } = init ?? {};
  const block = body?.type === 'BlockStatement' ? formOf(body) : `{ return ${formOf(body)}; }`;
  const code = isFunction(init) ? `function ${name}(${params.map(formOf)}) ${block}` :
                                  `const ${name} = $.value('${name}', () => ${formOf(init) || undefined});`;
  try {
    new Function(`'use strict'; ${code}`);
  } catch { refuse(init); }
  return `${code}\n`;
}

// Refuses what these lines would lose. Notes the names that are assigned to, and those that stand elsewhere than where they
// are declared or an element is read.
function examine(node, ancestors, others, assigned) {
  const { type, name, async, generator } = node;
  const [parent = {}, grand = {}] = [ancestors.at(-2), ancestors.at(-3)];
  const isInner = ancestors.length > 1 && /^(Function|Class)Declaration$/.test(type);
  if (async || generator || isInner || /^(arguments|eval)$/.test(name)) refuse(node);
  const isRead = parent.computed && parent.object === node && typeof parent.property.value !== 'string' &&
    grand.callee !== parent &&
    /^(BinaryExpression|CallExpression|ReturnStatement|VariableDeclarator)$/.test(grand.type);
  if (name && !isRead && parent.id !== node) others.add(name);
  const isAssignment = /^(Assignment|Update)Expression$|^For(In|Of)Statement$/.test(type);
  if (isAssignment) namesIn(node.left ?? node.argument).forEach((name) => assigned.set(name, node));
}

function namesIn(root) {
  const names = [];
  full(root, ({ name }) => names.push(...name ? [name] : []));
  return names;
}

function parseFile(file) {
  try {
    return parse(file[1], { ecmaVersion: 2022, sourceType: 'module', locations: true, directSourceFile: file }).body;
  } catch ({ message, loc }) { throw new Error(`${file[0]}:${loc.line}: ${message}`); }
}

// What functions may use of the language.
const LANGUAGE =
  `Infinity undefined Array ArrayBuffer BigUint64Array Float64Array Int32Array Math Number String Uint16Array
  Uint32Array Uint8Array`.split(/\s+/);

// Of modules, by file and text: a program that declares what they declare, its functions, and the names that are used otherwise
// than to read an element. The modules have one scope, as in join_modules.mjs.
export function read(files) {
  const declared = new Map(), assigned = new Map(), others = new Set();
  for (const file of files)
    for (const node of parseFile(file)) {
      const isPlain = ({ imported, local }) => imported?.name === local.name;
      const isOwn = ({ value }) => files.some(([name]) => `./${name}` === value);
      if (node.source && (!isOwn(node.source) || !(node.specifiers ?? []).every(isPlain))) refuse(node);
      if (node.source || node.specifiers?.length > 0) continue;
      const declaration = node.declaration ?? node;
      fullAncestor(declaration, (v, _, ancestors) => examine(v, ancestors, others, assigned));
      const { kind, id, declarations = [{ id, init: declaration }] } = declaration;
      for (const { id, init } of declarations)
        for (const name of id ? namesIn(id) : []) {
          if (declared.has(name) || LANGUAGE.includes(name)) refuse(node);
          declared.set(name, id.name && !/^(let|var)$/.test(kind) ? init : undefined);
        }
    }
  const inits = [...declared.values()].filter((init) => init);
  const names = [...declared.keys()].filter((name) => isFunction(declared.get(name)));
  for (const [name, node] of assigned)
    if (names.includes(name) || LANGUAGE.includes(name)) refuse(node);
  const undeclared = new Set(inits.flatMap(namesIn).filter((name) => !declared.has(name) && !LANGUAGE.includes(name)));
  const code = [...Array.from(undeclared, (name) => [name]), ...declared].map(declarationOf).join('');
  return { code: `'use strict';\n$.functions = { ${names} };\n${code}`, others };
}
