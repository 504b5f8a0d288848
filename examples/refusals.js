// What a refusal by the broker means, in one line.
const meaning = require('./refusals.json');

const said = (how, code, reason, wrong) =>
  [`${how} ${code} ${reason}`, meaning[reason] || 'see docs/FORMATS.md', wrong].filter(Boolean).join(': ');

// What a close means.
const refusal = (code, reason) => said('closed with', code, reason);

// With these options a session that the broker refuses is answered with a status, and one that is open has begun.
const asking = { headers: { 'X-Refusals': 'http' } };

// The number of the refusal in such an answer, and what of the target is wrong, where that is known.
const reasonIn = (response) => (response.headers['x-refusal'] || '').split(' ');

// What such an answer means. A proxy's has no number.
function refusedBy(response) {
  const [reason, wrong] = reasonIn(response);
  return reason ? said('answered with', response.statusCode, reason, wrong) : `turned away with ${response.statusCode}`;
}

module.exports = { refusal, asking, reasonIn, refusedBy };
