'use strict';
// What a copy of page/index.html runs too: types into its fields, posts what each showed with what it should
// show, and opens the page of the calls.
const ids = ['number', 'standard', 'alternative', 'key', 'uuid'];
const inputs = ids.map((id) => document.getElementById(id));

// What the fields show after a text is typed into one, the error, and which fields are invalid.
function shownAfter(id, text) {
  const input = document.getElementById(id);
  input.value = text;
  input.dispatchEvent(new Event('input'));
  const invalid = ids.filter((other) => document.getElementById(other).hasAttribute('aria-invalid'));
  return [inputs.map(({ value }) => value), document.getElementById(`${id}-error`).textContent, invalid];
}

const labels =
  Array.from(document.querySelectorAll('label'), ({ control }) => control?.getAttribute('aria-describedby'));
const checks = [
  ['first', inputs[1].value, 'LZ'], ['labels', labels, ids.map((id) => `${id}-error`)],
  ['submit', document.querySelector('form').dispatchEvent(new Event('submit', { cancelable: true })), false]
];
for (const values of [['1337', 'LZ', 'lz', '00000000000000000000LZ', '00000000-0000-0000-0000-000000000539'], [
       '340282366920938463463374607431768211455', '7n42DGM5Tflk9n8mt7Fhc7', '7N42dgm5tFLK9N8MT7fHC7',
       '7n42DGM5Tflk9n8mt7Fhc7', 'ffffffff-ffff-ffff-ffff-ffffffffffff'
     ]]) {
  ids.forEach((id, i) => {
    shownAfter('number', '5-');
    checks.push([id, shownAfter(id, values[i]), [values, '', []]]);
  });
}
const overflow = 'Encoded input represents 2**128 or more, or has more than 22 characters';
for (const [id, text, message] of [
       ['number', '340282366920938463463374607431768211456', 'The number is 2**128 or more'],
       ['number', '', 'A number consists of digits'], ['number', '0x5', 'A number consists of digits'],
       ['standard', '00LZ-x', "Encoded input contains the invalid byte b'-' at index 4"],
       ['alternative', '7N42dgm5tFLK9N8MT7fHC8', overflow], ['key', '00LZ', 'Encoded input has 4 bytes, not 22']]) {
  checks.push([text, shownAfter(id, text), [ids.map((other) => (other === id ? text : '')), message, [id]]]);
}
const address = location.hash.slice(1);
fetch(address, { method: 'POST', mode: 'no-cors', body: JSON.stringify(checks) }).then(() => location.assign(address));
