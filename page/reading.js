// Reads what was given in a thread of its own, so that the page goes on meanwhile.

/** The designs in what was given; an error where the thread can't be had, or ends. */
const readAside = (source, bytes, name) => new Promise((resolve, reject) => {
  const address = URL.createObjectURL(new Blob([source], { type: "text/javascript" }));
  const worker = new Worker(address);
  const end = (tell, value) => {
    worker.terminate();
    URL.revokeObjectURL(address);
    tell(value);
  };
  worker.onmessage = ({ data }) => end(resolve, data);
  worker.onerror = (event) => {
    event.preventDefault();
    end(reject, new Error(event.message ?? ""));
  };
  worker.postMessage({ bytes, name });
});

if (typeof WorkerGlobalScope !== "undefined") onmessage = async ({ data }) => {
  const found = await designsIn(data.bytes, data.name);
  // The bytes go over as they are, with no copy.
  postMessage(found, [...new Set(found.flatMap((it) => (it.bytes ? [it.bytes.buffer] : [])))]);
};
