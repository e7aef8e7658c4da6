// The page: what is packed, in the page itself and in an address.

/** @type {*} */
const streams = globalThis;              // whose types do not have the streams that pack

/** Bytes through a stream that packs or unpacks them.
 * @param {*} stream
 * @param {Uint8Array} bytes */
async function through(stream, bytes) {
  const blob = new Blob([/** @type {*} */ (bytes)]);
  return new Uint8Array(await new Response(blob.stream().pipeThrough(stream)).arrayBuffer());
}

/** Bytes in base 64 as such.
 * @param {string} text */
function bytesOf(text) { return Uint8Array.from(atob(text), one => one.charCodeAt(0)); }

/** Bytes that tools/web has packed.
 * @param {string} pack */
export async function unpacked(pack) { return through(new streams.DecompressionStream("gzip"), bytesOf(pack)); }

/** A text packed for an address.
 * @param {string} text */
export async function toLink(text) {
  const bytes = await through(new streams.CompressionStream("deflate-raw"), new TextEncoder().encode(text));
  return btoa(Array.from(bytes, byte => String.fromCharCode(byte)).join("")).replace(/\+/g, "-").replace(/\//g, "_").replace(/=+$/, "");
}

/** Such a text again.
 * @param {string} link */
export async function fromLink(link) {
  return new TextDecoder().decode(await through(new streams.DecompressionStream("deflate-raw"), bytesOf(link.replace(/-/g, "+").replace(/_/g, "/"))));
}
