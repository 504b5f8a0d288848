// Receives messages, and acknowledges each, as Pulsar's page on the WebSocket API has it.
// node consumer.js [address] [topic] [subscription] [count]
const WebSocket = require('ws');
const { refusal, asking, refusedBy } = require('./refusals.js');

const address = process.argv[2] || 'localhost:8080';
const topic = process.argv[3] || 'my-topic';
const subscription = process.argv[4] || 'my-sub';
const count = process.argv[5] ? Number(process.argv[5]) : Infinity;

const ws = new WebSocket(
  `ws://${address}/ws/v2/consumer/persistent/public/default/${topic}/${subscription}` +
  '?subscriptionInitialPosition=Earliest', asking);
let received = 0;

function fail(line) {
  console.error(line);
  process.exit(1);
}

ws.on('open', () => console.log('Waiting for messages'));

ws.on('message', (text) => {
  const message = JSON.parse(text);
  console.log('Received', Buffer.from(message.payload, 'base64').toString(), 'as', message.messageId);
  ws.send(JSON.stringify({ messageId: message.messageId }));
  received += 1;
  if (received === count) ws.close(1000);
});

ws.on('unexpected-response', (request, response) => fail(`refused: ${refusedBy(response)}`));
ws.on('error', (error) => fail(`no connection: ${error.message}`));
ws.on('close', (code, reason) => { if (code !== 1000) fail(`refused: ${refusal(code, reason)}`); });
