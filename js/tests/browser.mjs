// A page that runs the rows of tests/values.tsv, also in a worker, and posts the number of calls or the error of each.
import * as base62 from '../index.js';

import {Checks} from './calls.mjs';

const response = await fetch('/tests/values.tsv');
let result;
try {
  result = new Checks(base62, await response.text()).calls;
} catch (error) { result = `${error}`; }
if (globalThis.document) {
  const worker = new Worker(import.meta.url, { type: 'module' });
  worker.onmessage = worker.onerror = ({ data, message }) =>
    fetch('/', { method: 'POST', body: JSON.stringify([result, data ?? message]) });
} else postMessage(result);
