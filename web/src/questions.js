/** Calls that may take long, made on a worker so that the page stays quick. */

/** How long, in milliseconds, a call may run on once a newer question waits. */
const PATIENCE = 500;

/**
 * @typedef {object} Question
 * @property {string} call
 * @property {any[]} given
 * @property {any} [answer] what the call returned; 'failed' where it ended without an answer
 * @property {number} [begun]
 */

export class Questions {
    #bytes;
    #answered;
    /** @type {Worker | null} */
    #worker = null;
    /** @type {Question} */
    #newest = { call: '', given: [] };
    /** @type {Question | null} */
    #running = null;
    #timer = 0;
    #address = '';

    /**
     * @param {Uint8Array} bytes of the module
     * @param {() => void} answered is called when the newest question has its answer
     */
    constructor(bytes, answered) {
        this.#bytes = bytes;
        this.#answered = answered;
    }

    /**
     * The answer to a call with these very values, or undefined while the worker is at it. Only the newest question is answered.
     *
     * @param {string} call
     * @param {any[]} given
     */
    answer(call, given) {
        const { call: before, given: values } = this.#newest;
        const same = call === before && given.length === values.length && given.every((each, at) => each === values[at]);
        if (same) return this.#newest.answer;
        this.#newest = { call, given };
        if (this.#running) this.#limit(this.#running);
        else this.#ask(this.#newest);
        return this.#newest.answer;
    }

    /** Gives an older question up when its time is over. */
    #limit({ begun }) {
        clearTimeout(this.#timer);
        this.#timer = setTimeout(() => {
            this.#stop();
            this.#ask(this.#newest);
        }, Math.max(0, begun + PATIENCE - performance.now()));
    }

    /** @param {Question} question */
    #ask(question) {
        try {
            this.#worker ??= this.#started();
            this.#worker.postMessage({ call: question.call, given: question.given });
            question.begun = performance.now();
            this.#running = question;
        } catch (error) {
            question.answer = { is: 'failed', because: error.message };
            setTimeout(this.#answered);
        }
    }

    #started() {
        const script = document.getElementById('worker').textContent;
        this.#address ||= URL.createObjectURL(new Blob([script], { type: 'text/javascript' }));
        const worker = new Worker(this.#address);
        worker.addEventListener('message', ({ data }) => this.#received(data.answer));
        worker.addEventListener('error', (event) => {
            event.preventDefault();
            this.#stop();
            this.#received({ is: 'failed', because: event.message || 'this browser does not start the worker of the page' });
        });
        worker.postMessage({ bytes: this.#bytes });
        return worker;
    }

    #stop() {
        this.#worker?.terminate();
        this.#worker = null;
    }

    #received(answer) {
        clearTimeout(this.#timer);
        const question = this.#running;
        this.#running = null;
        if (question !== this.#newest) {
            this.#ask(this.#newest);
            return;
        }
        question.answer = answer;
        this.#answered();
    }
}
