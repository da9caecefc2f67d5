// Runs the repository's examples through the module. Returns a line for each: its name, and whether the text is the same.
async function runExamples(arena, names, read) {
    const limits = { budget: 1073741824n, refuse: [] };
    const lines = [];
    const check = (name, same) => lines.push(`${same ? "ok  " : "FAIL"} ${name}`);
    for (const name of names) {
        const { status, text } = arena.calls(await read(`calls/${name}.txt`), limits);
        check(name, status === 0 && text === await read(`calls/${name}.replies`));
    }
    const picture = arena.draw(await read("picture/blocks.txt"), limits);
    check("picture", picture.status === 0 && picture.text === await read("picture/blocks.svg"));
    const million = arena.gen(1n, 1000000n, limits);
    check("a million calls", million.status === 0 && million.text === await read("generated/million.summary"));
    const bad = arena.calls("used\nalloc x\n", limits);
    check("a line that is no call", bad.status === 2 && bad.line === 2);
    const listed = arena.calls("alloc 7 5 1 46\n", { budget: 16320n, refuse: [1n] });
    check("a listed request is refused", listed.text === "allocerr refused 1\n" && listed.refused === 1);
    return lines;
}
if (typeof module !== "undefined") module.exports = { runExamples };
