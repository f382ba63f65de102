/** The worker of the page: loads the module, then makes one call after another and posts what each returns. */

import { load } from '../../js/index.js';

let loading;

addEventListener('message', async ({ data: { bytes, call, given } }) => {
    if (bytes) {
        loading = load(bytes);
        return;
    }
    try {
        postMessage({ answer: (await loading)[call](...given) });
    } catch (error) {
        postMessage({ answer: { is: 'failed', because: error.message } });
    }
});
