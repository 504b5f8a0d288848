// Publishes the numbers from 0 on, so that each stands in the log exactly once, however often the connection is lost.
// node once.js [address] [topic] [producer's name] [count]
const { randomUUID } = require('crypto');
const Session = require('./session.js');

const DUPLICATE = 'CP///////////wEQ////////////AQ==';      // the id in the answer to a message that is in the log already

// Publishes messages under numbers that rise by 1, with up to `window` of them unanswered. What was not answered when a
// connection is lost is sent again, with the numbers that it had, and so stands in the log once.
//
// Without a name it takes a new one, and what it publishes is new. A name is for messages that have numbers of their own
// from 0 on: the first to be published is the one after `answered`, the last that is known to be answered. Whoever begins
// at -1 publishes all again in the same order; under a name of before, other messages count as duplicates and are lost.
class Producer extends Session {
  constructor(address, topic, { name = randomUUID(), answered = -1, window = 100 } = {}) {
    super(address, 'producer', topic);
    Object.assign(this, { name, answered, window });
    this.unanswered = [];
    this.duplicates = 0;
    this.open();
  }

  // Takes over a message, with `key` and `properties` if it has them, and tells its number. Waits while the window is
  // full: await it before the next. What refused an earlier message is thrown; messages behind it may be in the log.
  async publish(payload, fields = {}) {
    await this.until(() => this.unanswered.length < this.window);
    const text = { payload: Buffer.from(payload).toString('base64'), ...fields };
    this.unanswered.push(text);
    this.send(text);
    return this.answered + this.unanswered.length;
  }

  // Waits until everything is answered.
  async flush() {
    await this.until(() => this.unanswered.length === 0);
  }

  query() {
    return { producerName: this.name, initialSequenceId: this.answered };
  }

  opened() {
    for (const text of this.unanswered) this.send(text);
  }

  came(answer) {
    if (answer.result !== 'ok') {
      throw new Error(`refused: message ${this.answered + 1}: ${answer.result}, ${answer.errorMsg}`);
    }
    this.unanswered.shift();
    this.answered += 1;
    if (answer.messageId === DUPLICATE) this.duplicates += 1;
  }

  lost() {}
}

async function main() {
  const address = process.argv[2] || 'localhost:8080';
  const topic = process.argv[3] || 'numbers';
  const name = process.argv[4] || 'counter';
  const count = Number(process.argv[5] || 1000);
  const producer = new Producer(address, topic, { name });
  for (let number = 0; number < count; number += 1) await producer.publish(String(number));
  await producer.flush();
  await producer.close();
  console.log(`${count} messages over ${producer.connections} connections; ` +
    `${producer.duplicates} of those sent again were in the log already`);
}

module.exports = { Producer };

if (require.main === module) {
  main().catch((error) => {
    console.error(error.message);
    process.exit(1);
  });
}
