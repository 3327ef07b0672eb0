'use strict';
// The script of index.html. The package has the name base62.
const { alternative } = base62.Alphabet;

// Each field: its label, how it decodes what is typed, and how it shows a number.
const fields = {
  number: ['Number', numberOf, String],
  standard: ['Encoded string', base62.decode, base62.encode],
  alternative: [
    'Encoded string, lowercase first', (typed) => base62.decode(typed, alternative),
    (number) => base62.encode(number, alternative)
  ],
  key: ['Key', base62.decodeKey, base62.encodeKey],
  uuid:
    ['UUID', (typed) => base62.decode(base62.encodeUuid(typed)), (number) => base62.decodeUuid(base62.encode(number))]
};

function numberOf(typed) {
  if (!/^[0-9]+$/.test(typed)) throw new Error('A number consists of digits');
  const number = BigInt(typed);
  if (number >> 128n) throw new Error('The number is 2**128 or more');
  return number;
}

// Leaves what is typed in its field as it is.
function update(typedId) {
  const { value } = document.getElementById(typedId);
  let number;
  let error;
  try {
    number = fields[typedId][1](value);
  } catch (thrown) { error = thrown; }
  for (const [id, [, , show]] of Object.entries(fields)) {
    const input = document.getElementById(id);
    input.removeAttribute('aria-invalid');
    if (id !== typedId) input.value = error ? '' : show(number);
    document.getElementById(`${id}-error`).textContent = '';
  }
  if (!error) return;
  document.getElementById(typedId).setAttribute('aria-invalid', 'true');
  document.getElementById(`${typedId}-error`).textContent = error.message;
}

const form = document.querySelector('form');
form.addEventListener('submit', (event) => event.preventDefault());
for (const [id, [label]] of Object.entries(fields)) {
  form.insertAdjacentHTML('beforeend', `
    <label for="${id}">${label}</label>
    <input id="${id}" aria-describedby="${id}-error">
    <output id="${id}-error" for="${id}"></output>`);
  document.getElementById(id).addEventListener('input', () => update(id));
}
document.getElementById('number').value = '1337';
update('number');
