// Works on the messages of a subscription, one after another, each for as long as it takes.
// node worker.js [address] [topic] [subscription] [seconds of work for each message] [count]
const Session = require('./session.js');

// Calls `work(payload, message)` for each message, awaits the promise that it returns, and then acknowledges the message.
// Work that computes for long belongs to a thread (`worker_threads`): Node answers pings only where its events run.
//
// Work that fails gives the message back. At least once: an acknowledgement that may not have come to the broker is sent
// again by the next connection, and its message, which comes again there, is not worked on a second time. Two cases are
// left. The broker is killed before it has stored the acknowledgement; or the connection is lost and the message goes to
// another worker. Then the message is worked on again, since nobody can know better.
class Worker extends Session {
  constructor(address, topic, subscription, work, query = {}) {
    super(address, 'consumer', topic, subscription);
    this.work = work;
    this.parameters = {
      subscriptionType: 'Shared', receiverQueueSize: 10, subscriptionInitialPosition: 'Earliest', ...query,
    };
    this.kept = new Map();      // by id, what came and was not begun: as many as the receiver queue at most
    this.inHand = null;         // the id of the message that is worked on
    this.unsure = new Set();    // ids whose acknowledgement may not have been taken
    this.asked = [];            // for each question without an answer, the ids acknowledged before it
    this.stopping = false;
  }

  // Works until so many messages are done, or `stop` was called, and then until the acknowledgements were taken.
  async run(count = Infinity) {
    this.open();
    try {
      for (let done = 0; done < count;) {
        await this.until(() => this.kept.size > 0 || this.stopping);
        if (this.stopping) break;
        if (await this.workOnNext()) done += 1;
      }
      await this.until(() => this.unsure.size === 0);
    } finally {
      await this.close();
    }
  }

  // Lets `run` end after the message in hand.
  stop() {
    this.stopping = true;
    this.changed();
  }

  // Whether the work was done.
  async workOnNext() {
    const [id, message] = this.kept.entries().next().value;
    this.kept.delete(id);
    this.inHand = id;
    try {
      await this.work(Buffer.from(message.payload, 'base64'), message);
    } catch (error) {
      console.error(`message ${id} is given back:`, error);
      this.inHand = null;
      // without a connection it comes again in any case
      this.send({ type: 'negativeAcknowledge', messageId: id });
      return false;
    }
    this.inHand = null;
    this.unsure.add(id);
    this.acknowledge([id]);
    return true;
  }

  // An acknowledgement has no answer. A question behind it has one, and then all before it was taken.
  acknowledge(ids) {
    for (const id of ids) this.send({ messageId: id });
    this.send({ type: 'isEndOfTopic' });
    this.asked.push(ids);
  }

  query() {
    return this.parameters;
  }

  opened() {
    this.asked = [];
    this.acknowledge([...this.unsure]);
  }

  came(text) {
    if ('endOfTopic' in text) {
      for (const id of this.asked.shift()) this.unsure.delete(id);
    } else if (text.messageId !== this.inHand && !this.unsure.has(text.messageId)) {
      this.kept.set(text.messageId, text);
    }
  }

  lost() {
    this.kept.clear();      // all of them come again
  }
}

module.exports = { Worker };

if (require.main === module) {
  const address = process.argv[2] || 'localhost:8080';
  const topic = process.argv[3] || 'my-topic';
  const subscription = process.argv[4] || 'workers';
  const seconds = Number(process.argv[5] || 1);
  const count = process.argv[6] ? Number(process.argv[6]) : Infinity;

  const work = async (payload, message) => {
    console.log('Begun', payload.toString(), 'as', message.messageId);
    await new Promise((end) => setTimeout(end, 1000 * seconds));
    console.log('Done', payload.toString(), 'as', message.messageId);
  };
  new Worker(address, topic, subscription, work).run(count).catch((error) => {
    console.error(error.message);
    process.exit(1);
  });
}
