// The module's three functions, over text and numbers. Addresses and 64-bit numbers are BigInts.

// Returns the functions of a module, given a promise of its bytes.
async function loadArena(bytes) {
    const { instance } = await WebAssembly.instantiate(await bytes, {});
    const { memory, heap_take, heap_forget, ...exports } = instance.exports;
    let room = 1 << 16;

    // Copies an array to the module's memory, and returns its address there.
    const put = list => {
        const at = heap_take(BigInt(list.byteLength || 1));
        if (at === 0n) throw new Error("out of memory");
        const from = new Uint8Array(list.buffer, list.byteOffset, list.byteLength);
        new Uint8Array(memory.buffer, Number(at), list.byteLength).set(from);
        return at;
    };

    // Calls with the parameters that all three have at their end, and once more if the text has no room.
    const run = (call, { budget, refuse }) => {
        for (;;) {
            heap_forget();
            const list = put(BigUint64Array.from(refuse)), count = BigInt(refuse.length);
            const at = put(new BigUint64Array(3)), out = put(new Uint8Array(room));
            const status = call(budget, list, count, out, BigInt(room), at);
            const report = new BigUint64Array(memory.buffer, Number(at), 3);
            const [length, line, refused] = Array.from(report, Number);
            if (status !== 7) {
                const text = new TextDecoder().decode(new Uint8Array(memory.buffer, Number(out), length));
                return { status, text, line, refused };
            }
            room = length;
        }
    };
    const overLines = name => (lines, limits) => {
        const bytes = new TextEncoder().encode(lines);
        return run((...rest) => exports[name](put(bytes), BigInt(bytes.length), ...rest), limits);
    };
    return {
        calls: overLines("arena_oracle_calls"),
        draw: overLines("arena_oracle_draw"),
        gen: (start, count, limits) => run((...rest) => exports.arena_oracle_gen(start, count, ...rest), limits),
    };
}
if (typeof module !== "undefined") module.exports = { loadArena };
