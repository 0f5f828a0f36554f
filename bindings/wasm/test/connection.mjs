/* Requests that are answered by their numbers, and messages that answer none: what the protocols
 * of both browsers have in common. */
export class Connection {
    #waiting = new Map();
    #last = 0;
    #write;
    #heard;

    /* Opens a channel, which is given a function for each text that arrives and gives one that
     * sends a text. `heard` is given what answers no request. */
    static async open(channel, heard) {
        const connection = new Connection();
        connection.#heard = heard;
        connection.#write = await channel((text) => connection.#receive(JSON.parse(text)));
        return connection;
    }

    #receive(message) {
        this.#waiting.get(message.id)?.(message);
        this.#waiting.delete(message.id);
        if (message.method) this.#heard(message);
    }

    /* Sends a request and gives its result; `more` has what belongs beside its parameters. */
    async send(method, params = {}, more = {}) {
        const id = ++this.#last;
        const { error, message, result } = await new Promise((done) => {
            this.#waiting.set(id, done);
            this.#write(JSON.stringify({ id, method, params, ...more }));
        });
        if (error) throw new Error(`${method}: ${error.message ?? message}`);
        return result;
    }
}
