// Splits long work into time slices. Between two slices, the browser can draw and react.

// The length of a slice in milliseconds.
const SLICE_MILLISECONDS = 12;

/** A time slice. `pause` lets the browser draw and react if the slice is over, and then begins the next slice. */
export class TimeSlice {
    #start = performance.now();

    async pause() {
        if (performance.now() - this.#start < SLICE_MILLISECONDS) {
            return;
        }
        await new Promise((done) => {
            const channel = new MessageChannel();
            channel.port1.onmessage = () => {
                channel.port1.close();
                done();
            };
            channel.port2.postMessage(0);
        });
        this.#start = performance.now();
    }
}
