// Publishes messages, and waits for the answer of each, as Pulsar's page on the WebSocket API has it.
// node producer.js [address] [topic] [count]
const WebSocket = require('ws');
const { refusal, asking, refusedBy } = require('./refusals.js');

const address = process.argv[2] || 'localhost:8080';
const topic = process.argv[3] || 'my-topic';
const count = Number(process.argv[4] || 10);

const ws = new WebSocket(`ws://${address}/ws/v2/producer/persistent/public/default/${topic}`, asking);
let number = 0;

function publish() {
  if (ws.readyState !== WebSocket.OPEN) return;
  number += 1;
  ws.send(JSON.stringify({
    payload: Buffer.from(`Hello World ${number}`).toString('base64'),
    properties: { number },
    context: String(number),
  }));
}

function fail(line) {
  console.error(line);
  process.exit(1);
}

ws.on('open', publish);      // the session has begun

ws.on('message', (text) => {
  const response = JSON.parse(text);
  if (response.result !== 'ok') {
    fail(`refused: message ${number}: ${response.result}, ${response.errorMsg}`);
  }
  console.log('Published', response.context, 'as', response.messageId);
  if (number < count) publish(); else ws.close(1000);
});

ws.on('unexpected-response', (request, response) => fail(`refused: ${refusedBy(response)}`));
ws.on('error', (error) => fail(`no connection: ${error.message}`));
ws.on('close', (code, reason) => { if (code !== 1000) fail(`refused: ${refusal(code, reason)}`); });
