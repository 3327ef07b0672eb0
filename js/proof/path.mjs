// A path through functions: what is known on it, and what has to be proved, as a script for z3. Terms are SMT-LIB.
import {spawn} from 'node:child_process';
import {cpus} from 'node:os';
import {createInterface} from 'node:readline';

export const power = (k) => 2n ** BigInt(k);
export const literal = (n) => (n < 0n ? `(- ${- n})` : `${n}`);
export const range = (term, low, high) => `(<= ${literal(low)} ${term} ${literal(high)})`;
const floorOfQuotient = (n, d) => (n - (((n % d) + d) % d)) / d;

// A value that is not known. Only rules know it: any other use of it is an error.
export class Unknown {
  constructor(properties) { Object.assign(this, properties); }
  [Symbol.toPrimitive]() { throw new Error('no rule for this use of a value'); }
}

// An integer within bounds, which a BigInt may lack. A Number is Infinity instead where `infinite` holds.
export const integer = (term, low, high, type = 'number', infinite = 'false') =>
  new Unknown({term, low, high, type, infinite});
export const constant = (n, type) => integer(literal(n), n, n, type);
export const isConstant = (v) => v.low !== undefined && v.low === v.high && v.infinite === 'false';

class Path {
  lines = ['(set-option :smt.arith.solver 2)'];
  passed = 0;
  decided = 0;
  found = new Map();

  // The decisions for the first conditions, and a list for those of other paths.
  constructor(decisions, others) { Object.assign(this, { decisions, others }); }

  assume(term) { this.lines.push(`(assert ${term})`); }

  // What comes later may rest on a goal: a path ends at its first open one.
  prove(goal, term) { this.lines.push({ goal, term }); }

  unknown(low, high, type) {
    const v = integer(`x${this.lines.length}`, low, high, type);
    this.lines.push(`(declare-const ${v.term} Int)`);
    if (low !== undefined) this.assume(range(v.term, low, high));
    return v;
  }

  // An unknown value that is given to functions.
  input(...bounds) {
    const input = this.unknown(...bounds);
    this.lines.push({ input });
    return input;
  }

  // What is found for a key, once.
  once(key, find) { return this.found.get(key) ?? this.found.set(key, find()).get(key); }

  define(definition) {
    return this.once(definition, () => {
      const { term } = this.unknown();
      this.assume(`(= ${term} ${definition})`);
      return term;
    });
  }

  // The integers q and r with v = divisor * q + r and start <= r < start + divisor.
  divide(v, divisor, start = 0n) {
    const [low, high] = [v.low, v.high].map((n) => n === undefined ? n : floorOfQuotient(n - start, divisor));
    if (low === 0n && high === 0n) return [constant(0n, v.type), v];
    return this.once(`${v.term} ${divisor} ${start}`, () => {
      const [q, r] = [this.unknown(low, high, v.type), this.unknown(start, start + divisor - 1n, v.type)];
      this.assume(`(= ${v.term} (+ (* ${divisor} ${q.term}) ${r.term}))`);
      return [q, r];
    });
  }

  // Which way a condition goes on this path. Another path goes the other way.
  decide(term) {
    if (this.decided === this.decisions.length) {
      this.others.push([...this.decisions, false]);
      this.decisions.push(true);
    }
    const way = this.decisions[this.decided++];
    this.assume(way ? term : `(not ${term})`);
    return way;
  }
}

// Runs a function once on each path.
export function explore(run) {
  const paths = [];
  for (const others = [[]]; others.length > 0;) {
    const path = new Path(others.pop(), others);
    run(path);
    if (paths.push(path) > 1000) throw new Error('more than 1000 paths');
  }
  return paths;
}

// A limit counts steps of z3, so that its result is the same on each machine. A goal takes at most 800,000.
const check = (limit) => `(set-option :rlimit ${limit})
(check-sat-using (then simplify propagate-values solve-eqs smt))
(set-option :rlimit 0)`;

// A value to try where z3 finds none: the least, the greatest, or one of any size.
function draw({ term, low = -power(130), high = power(130) }, seed) {
  const any = low + 5n ** BigInt(seed % 61) % (high - low + 1n);
  return `(assert (= ${term} ${literal([low, high, any, any][seed % 4])}))`;
}

class Solver {
  z3 = spawn('z3', ['-in']);
  results = createInterface({ input: this.z3.stdout })[Symbol.asyncIterator]();

  // All that z3 prints for commands.
  async ask(...commands) {
    this.z3.stdin.write(`${commands.join('\n')}\n(echo "end")\n`);
    let result = '';
    for (let line = await this.results.next(); !line.done && line.value !== 'end'; line = await this.results.next())
      result += line.value;
    if (result.startsWith('(error "tactic failed: ')) return 'unknown';
    if (result.includes('error')) throw new Error(result);
    return result;
  }

  // Whether a term is false for some values of the inputs. If z3 does not find out, some are tried.
  async refute(script, term, inputs, limit) {
    const result = await this.ask(...script, '(push)', `(assert (not ${term}))`, check(limit));
    for (let i = 0; i < 20 && result === 'unknown'; i++) {
      const values = inputs.map((input, j) => draw(input, 7 * i + 11 * j));
      if (await this.ask('(push)', ...values, check(100_000)) === 'sat') return 'sat';
      await this.ask('(pop)');
    }
    return result;
  }

  // Finds the first open goal, with a call as an example if values are found, or whether the path is possible.
  async solve(path) {
    const [script, inputs] = [['(reset)'], []];
    for (const line of path.lines) {
      if (line.input) inputs.push(line.input);
      else if (!line.goal) script.push(line);
      else {
        path.open = line.goal;
        const result = await this.refute(script.splice(0), line.term, inputs, 3_000_000);
        if (result === 'sat') path.example = path.show?.(await this.valuesOf(inputs));
        if (result !== 'unsat') return;
        script.push('(pop)', `(assert ${line.term})`);
        path.passed++;
      }
    }
    path.open = undefined;
    path.isPossible = await this.refute(script, 'false', inputs, 300_000) === 'sat';
  }

  // What z3 has found for the inputs.
  async valuesOf(inputs) {
    const found = await this.ask(`(get-value (${inputs.map(({ term }) => term).join(' ')}))`);
    const values = Array.from(found.matchAll(/ \(?(-? ?\d+)\)/g), ([, value]) => BigInt(value.replace(' ', '')));
    return (input) => values[inputs.indexOf(input)] ?? input.low ?? 0n;
  }
}

// Asks z3, for each processor about one path at a time.
export async function solve(paths, report = () => {}) {
  const queue = paths.values();
  await Promise.all(cpus().map(async () => {
    const solver = new Solver();
    for (const path of queue) {
      await solver.solve(path);
      report(path);
    }
    solver.z3.stdin.end();
  }));
}
