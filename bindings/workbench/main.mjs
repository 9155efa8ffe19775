// The page begins: the engine is unpacked and loaded, then an address's state is shown, or else the story is told.
import { load } from "../js/engine.mjs";
import { Bench } from "./bench.mjs";
import { one } from "./dom.mjs";
import { useData } from "./words.mjs";

async function begin() {
    const data = JSON.parse(one("#data").textContent);
    useData(data);
    const small = Uint8Array.from(atob(data.engine), (letter) => letter.charCodeAt(0));
    const stream = new Blob([small]).stream().pipeThrough(new DecompressionStream("gzip"));
    const engine = await load(await new Response(stream).arrayBuffer());
    const bench = new Bench(engine, data.files);
    if (!(await bench.address())) await bench.story.tell("story-final.sheet");
}

begin().catch((error) => {
    one("#outcome").textContent = `This browser cannot run the workbench: ${error.message}`;
    throw error;
});
