// Tests of the package's files, in a clone of the repository, and of its copies and what a runtime may lack.
import base62 from 'base62-proved';
import assert from 'node:assert/strict';
import {execFileSync, spawnSync} from 'node:child_process';
import {mkdtempSync, readFileSync, rmSync, writeFileSync} from 'node:fs';
import {createRequire} from 'node:module';
import {tmpdir} from 'node:os';
import {join} from 'node:path';
import {test} from 'node:test';
import {fileURLToPath} from 'node:url';
import {format, inspect} from 'node:util';
import {createContext, runInContext, runInNewContext} from 'node:vm';
import {gzipSync} from 'node:zlib';

import * as modules from '../index.js';

import {Checks} from './calls.mjs';

const pathOf = (name) => fileURLToPath(new URL(`../${name}`, import.meta.url));
const read = (name) => readFileSync(pathOf(name), 'utf8');
const cwd = pathOf('.');
const declarations = read('index.d.cts');

test('npm packs these files alone', () => {
  // A list, or from npm 12 on an object by the names of packages.
  const [{ files }] = Object.values(JSON.parse(execFileSync('npm', ['pack', '--dry-run', '--json'], { cwd })));
  const code = ['commonjs/index.js', 'commonjs/package.json', 'digits.js', 'index.js', 'strings.js', 'uuid.js'];
  const expected = ['LICENSE', 'README.md', 'index.d.cts', 'index.d.ts', 'package.json', ...code];
  assert.deepEqual(files.map(({ path }) => path).sort(), expected.sort());
});

test('commonjs/index.js is generated from the modules', () => {
  const generated = execFileSync(process.execPath, [pathOf('join_modules.mjs'), '-'], { encoding: 'utf8' });
  assert.equal(read('commonjs/index.js'), generated);
});

test('package.json has the licence of the sources, can be published, and each path in it leads to a file', () => {
  const { exports, license, main, module, private: isPrivate, types } = JSON.parse(read('package.json'));
  assert.deepEqual([`${license} License`, isPrivate], [read('LICENSE').split('\n')[0], undefined]);
  assert.equal(/-License-Identifier: (.+)/.exec(read('index.js'))[1], license);
  const { import: forImport, require: forRequire } = exports['.'];
  // What reads no exports reads these.
  assert.deepEqual([main, module, types], [forRequire.default, forImport.default, forImport.types]);
  for (const name of [...Object.values(forImport), ...Object.values(forRequire), exports['./package.json']]) read(name);
});

test('README has the oldest Node and the codes of the types', () => {
  const readme = read('README.md');
  const { engines } = JSON.parse(read('package.json'));
  assert.equal(/for Node (\d+) and later/.exec(readme)[1], engines.node.slice('>='.length));
  const [, union] = / {2}code:([^;]+);/.exec(declarations);
  assert.deepEqual(readme.match(/(?<=^\| `)[A-Z_]+(?=`)/gm).sort(), union.match(/\w+/g).sort());
});

test('calls return and throw what the examples of the types and README say', () => {
  const call = (code, console) => runInNewContext(code, {...modules, console });
  const examples = [...declarations.matchAll(/@example((?: .+)?\n(?: +\* .+\n)*) +\*\/\n/g)];
  assert.equal(examples.length, declarations.split('@example').length - 1);
  examples.push(/```js first.mjs\nimport .*\n([^`]+)/.exec(read('README.md')));
  for (const [, example] of examples) {
    const printed = [];
    const code = example.replace(/^ +\* /gm, '');
    call(code, { log: (...values) => printed.push(format(...values)) });
    assert.deepEqual(printed, Array.from(code.matchAll(/; \/\/ (.+)$/gm), ([, line]) => line));
    assert.ok(printed.length > 0);
  }
  const claims = [...read('README.md').matchAll(/`(\w+\([^`]+)` (returns|throws) `([^`]+)`/g)];
  assert.deepEqual(claims.map(([, , verb]) => verb).sort(), ['returns', 'returns', 'throws']);
  for (const [, code, verb, expected] of claims) {
    if (verb === 'throws') assert.throws(() => call(code), { code: expected });
    else assert.equal(inspect(call(code)), expected);
  }
});

// Debian's packages are there, where other builds of Node do not look.
const env = Object.assign({}, process.env, { NODE_PATH: '/usr/share/nodejs' });
const run = (program, args, input) => execFileSync(program, args, { cwd, encoding: 'utf8', env, input });
const isMissing = (program) => spawnSync(program, ['--version'], { env }).status !== 0 && `install ${program}`;
const bundle = (input) => run('esbuild', ['--bundle', '--minify'], input);
const noEsbuild = isMissing('esbuild');

test('a bundle has one copy, of the size in README, or nothing without a call', { skip: noEsbuild }, () => {
  const both =
    bundle("import { decodeCanonical } from 'base62-proved'; f(decodeCanonical, require('base62-proved').decode);");
  assert.equal(both.split('has a leading zero').length, 2);
  assert.ok(bundle("import { encode } from 'base62-proved';").length < 100);
  const bundles = ['{ encode }', '* as encode'].map((all) => bundle(`import ${all} from 'base62-proved'; f(encode);`));
  const sizes = bundles.flatMap((code) => [code.length, gzipSync(code, { level: 9 }).length]);
  const stated = read('README.md').match(/[0-9.]+(?= kB)/g);
  const are = sizes.map((size, i) => (Math.floor(size / 100 / stated[i]) === 9 ? stated[i] : `${size} bytes`));
  assert.deepEqual(are, stated);
});

// In Node it is that of CommonJS, and in a bundle that of the module.
const BUNDLERS = {
  node: (input) => input,
  esbuild: bundle,
  rollup: (input) => run('rollup', ['--silent', '--format=es', '-'], input.replace('base62-proved', './index.js'))
};
for (const [program, convert] of Object.entries(BUNDLERS)) {
  test(`a default import has all functions: ${program}`, { skip: isMissing(program) }, () => {
    const code = convert("import all from 'base62-proved'; console.log(`${Object.keys(all)},${all.encode(1337)}`);");
    const printed = run('node', ['--input-type=module'], code).trim().split(',');
    assert.deepEqual(printed.filter((name) => name !== 'default').sort(), ['LZ', ...Object.keys(base62)].sort());
  });
}

test('what Babel makes of the modules returns the same', { skip: isMissing('babeljs') }, () => {
  for (const targets of ['ie 11', '> 0.2%, not dead, not op_mini all', undefined]) {
    const folder = mkdtempSync(join(tmpdir(), 'base62-'));
    const config = join(folder, 'babel.config.json');
    const files = ['digits.js', 'strings.js', 'uuid.js', 'index.js', `--out-dir=${folder}`];
    try {
      writeFileSync(config,
        JSON.stringify({ presets: [['/usr/share/nodejs/@babel/preset-env', { targets, modules: 'commonjs' }]] }));
      execFileSync('babeljs', ['--config-file', config, ...files], { cwd, env });
      if (targets === 'ie 11') assert.doesNotMatch(readFileSync(join(folder, 'index.js'), 'utf8'), /^const /m);
      new Checks(createRequire(folder)(join(folder, 'index.js')), read('../tests/values.tsv'));
    } finally { rmSync(folder, { recursive: true }); }
  }
});

test('import and require give one copy, whose alphabets and errors work in both', () => {
  const { Alphabet, Base62Error } = createRequire(import.meta.url)('base62-proved');
  assert.equal(base62.encode(1337, Alphabet.alternative), 'lz');
  assert.throws(() => base62.decode('LZ-'), (error) => error instanceof Base62Error && error instanceof RangeError);
  assert.throws(() => base62.encode(1337, new modules.Alphabet(Alphabet.standard.characters)), TypeError);
});

// Runs code, and then the script of the package twice, in a page without WebAssembly and code generation.
function pageAfter(code) {
  const page = createContext({}, { codeGeneration: { strings: false, wasm: false } });
  const script = read('commonjs/index.js');
  for (const part of [`delete globalThis.WebAssembly; ${code}`, script, script]) runInContext(part, page);
  return page;
}

test('a script of a page has one name, inherits nothing from Object.prototype, and needs little-endian words', () => {
  const fields = { code: 'INVALID_BYTE', byte: 45, index: 2 };
  for (const name of ['configurable', 'get', 'set', 'writable', ...Object.keys(fields)]) {
    const property = `{ value: 5, enumerable: true, writable: ${!(name in fields)} }`;
    const page = pageAfter(`const decode = 1; Object.defineProperty(Object.prototype, '${name}', ${property})`);
    assert.deepEqual(Object.keys(page), ['base62']);
    assert.throws(() => page.base62.decode('LZ-'), (error) => {
      assert.deepEqual({...error }, fields);
      Object.assign(error, { name: 'Other', code: 5, byte: 5, index: 5 });
      return error instanceof page.base62.Base62Error && `${error}`.startsWith('Other: ');
    });
  }
  assert.throws(
    () => pageAfter('Uint16Array.of = () => Uint8Array.of(0, 1)'), /base62-proved needs a little-endian processor$/);
});

test('a runtime without WebAssembly and without a compiler has all functions', () => {
  const start = (option, ...others) => spawnSync(process.execPath, [option, ...others], { env: {}, encoding: 'utf8' });
  // Some versions of Node have no such option, but --jitless leaves WebAssembly out too.
  const hasOption = start('--no-expose-wasm', '--version').status === 0;
  for (const option of hasOption ? ['--no-expose-wasm', '--jitless'] : ['--jitless']) {
    const { status, stdout } = start(option, '--test-name-pattern=commonJs', pathOf('tests/calls.test.mjs'));
    assert.equal(status, 0, stdout);
  }
});
