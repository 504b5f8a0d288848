// A session with the broker that lasts: it is opened again after each loss, with growing pauses. Pings are answered as
// long as the program lets Node's events run.
const WebSocket = require('ws');
const { refusal, asking, reasonIn, refusedBy } = require('./refusals.js');

const FIRST_PAUSE = 100;          // milliseconds before a further try
const LONGEST_PAUSE = 30000;
const OPENING = 90000;            // for the handshake: a topic of many messages is read first
const SILENCE = 30000;            // without a word of the broker: it is pinged then, and after as many more it is gone
const FINAL = ['F5', 'F9', 'F13', 'F14', 'F17', 'F18', 'F20', 'F24', 1002, 1007, 1009];      // no further try mends these
const LIMITS = ['F7', 'F21'];     // these pass when somebody ends something

// What is said over it is a subclass's part: query, opened, came and lost.
class Session {
  constructor(address, kind, topic, ...last) {
    const names = topic.includes('/') ? topic.split('/') : ['public', 'default', topic];
    const path = [kind, 'persistent', ...names, ...last].map(encodeURIComponent).join('/');
    this.place = `ws://${address}/ws/v2/${path}`;
    this.ws = null;           // the connection, while there is one
    this.failure = null;      // why no further one is tried
    this.closing = false;
    this.connections = 0;
    this.tries = 0;
    this.waiting = [];
  }

  // Sends a text, if there is a connection.
  send(text) {
    if (this.ws && this.ws.readyState === WebSocket.OPEN) this.ws.send(JSON.stringify(text));
  }

  // Waits for a condition. What ended the session is thrown.
  async until(condition) {
    while (!this.failure && !this.closing && !condition()) await new Promise((go) => this.waiting.push(go));
    if (this.failure) throw this.failure;
    if (!condition()) throw new Error('the session was closed');
  }

  changed() {
    for (const go of this.waiting.splice(0)) go();
  }

  // Ends the session. What was sent before was taken, where the broker is there to answer the close.
  async close() {
    this.closing = true;
    this.changed();
    clearTimeout(this.timer);
    if (!this.trying) return;
    if (this.ws) this.ws.close(1000); else this.trying.terminate();
    const late = setTimeout(() => this.trying && this.trying.terminate(), 5000);
    await this.ended;
    clearTimeout(late);
  }

  fail(failure) {
    this.failure = failure;
    if (this.trying) this.trying.terminate();
    this.changed();
  }

  // One connection, to its end.
  open() {
    const ws = new WebSocket(`${this.place}?${new URLSearchParams(this.query())}`, { ...asking, handshakeTimeout: OPENING });
    this.trying = ws;
    this.ended = new Promise((end) => ws.on('close', end));
    let lost = 'the connection ended';
    let answer = null;        // of the broker, or a proxy, that gives no session
    let silent = 0;

    const look = setInterval(() => {
      if (ws.readyState !== WebSocket.OPEN) return;
      silent += 1;
      if (silent === 1) ws.ping(); else ws.terminate();
    }, SILENCE);
    for (const heard of ['ping', 'pong', 'message']) ws.on(heard, () => { silent = 0; });

    ws.on('open', () => {      // the session has begun
      this.connections += 1;
      this.ws = ws;
      this.opened();
    });

    ws.on('message', (text) => {
      if (this.failure) return;
      this.tries = 0;
      try {
        this.came(JSON.parse(text));
      } catch (error) {
        this.fail(error);
      }
      this.changed();
    });

    ws.on('unexpected-response', (request, response) => {
      answer = response;
      ws.terminate();
    });
    ws.on('error', (error) => { lost = error.message || error.code; });      // a close follows
    ws.on('close', (code, reason) => {
      clearInterval(look);
      this.ws = this.trying = null;
      this.lost();
      if (!this.closing && !this.failure) this.again(code, answer ? reasonIn(answer)[0] : String(reason), answer, lost);
    });
  }

  // Tries again after a pause, if that may help. By chance the pause is up to a half shorter: not all clients come back at
  // once.
  again(code, reason, answer, lost) {
    const final = FINAL.includes(reason) || FINAL.includes(code);
    const refused = final || reason !== '';
    const why = refused ? `refused: ${answer ? refusedBy(answer) : refusal(code, reason)}` : answer ? refusedBy(answer) : lost;
    if (final || (answer && !refused && answer.statusCode < 500)) {      // from 500 on: a proxy whose broker is away
      this.fail(new Error(why));
      return;
    }
    const longest = LIMITS.includes(reason) ? LONGEST_PAUSE : Math.min(LONGEST_PAUSE, FIRST_PAUSE * 2 ** this.tries);
    const pause = longest * (0.5 + Math.random() / 2);
    this.tries += 1;
    // F2: the lost connection still has the name
    if (this.tries > 5 || (refused && reason !== 'F2')) console.error(`trying again in ${Math.round(pause)} ms: ${why}`);
    this.timer = setTimeout(() => this.open(), pause);
  }
}

module.exports = Session;
