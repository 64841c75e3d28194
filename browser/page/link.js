// ---- a script as the end of a link: `#script=`, and the text by deflate, in base64url

// A script may have so many bytes: a short link could unfold to any size.
const MOST = 1 << 20;

async function linkOf(text) {
    const stream = new Blob([text]).stream().pipeThrough(new CompressionStream('deflate-raw'));
    const packed = new Uint8Array(await new Response(stream).arrayBuffer());
    const letters = [...packed].map(it => String.fromCharCode(it)).join('');
    return '#script=' + btoa(letters).replaceAll('+', '-').replaceAll('/', '_').replaceAll('=', '');
}

// Gives the script of the end of a link; null where it has none, and an error where it can't be read.
async function scriptOf(hash) {
    if (!hash.startsWith('#script=')) return null;
    const letters = atob(hash.slice('#script='.length).replaceAll('-', '+').replaceAll('_', '/'));
    const packed = Uint8Array.from(letters, it => it.charCodeAt(0));
    const reader = new Blob([packed]).stream().pipeThrough(new DecompressionStream('deflate-raw')).getReader();
    const pieces = [];
    for (let size = 0; ;) {
        const { done, value } = await reader.read();
        if (done) return new TextDecoder().decode(await new Blob(pieces).arrayBuffer());
        size += value.length;
        if (size > MOST) throw new Error('its script is too long');
        pieces.push(value);
    }
}
