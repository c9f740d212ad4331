// The calls of edd.wasm. All that is known of EDDL is in there; this file only passes bytes.

const STATUS = ["done", "refused", "memory", "unknown"];
const reader = new TextDecoder();
const writer = new TextEncoder();

/** A call that gave nothing: why, and the line of a refusal where there is one. */
export class Refusal extends Error {
    constructor(status, line) {
        super(status === "memory" ? "out of memory" : line || "nothing is there");
        this.status = status;
    }
}

/** The module. One that stopped in the middle of a call is replaced by a new one, and its desks are gone. */
export class Engine {
    static async at(url) {
        const answer = await fetch(url);
        if (!answer.ok) {
            throw new Error(`${url}: ${answer.status}`);
        }
        const engine = new Engine();
        // Any server of files will do, also one that doesn't know the type of a module.
        engine.module = await WebAssembly.compile(await answer.arrayBuffer());
        engine.begin();
        return engine;
    }

    begin() {
        this.calls = new WebAssembly.Instance(this.module, {}).exports;
        this.words = new Map();
    }

    /** Makes a call with these things, texts and bytes as blocks, and gives what `read` makes of its result. */
    call(name, things, read) {
        const blocks = [];
        try {
            const words = things.map((it) => {
                if (typeof it === "number") {
                    return it;
                }
                const block = this.block(typeof it === "string" ? writer.encode(it) : it);
                blocks.push(block);
                return block;
            });
            return read(this.calls[name](...words));
        } catch (error) {
            if (error instanceof WebAssembly.RuntimeError) {
                this.begin();
                this.restarted?.();
                blocks.length = 0;
                throw new Refusal("memory");
            }
            throw error;
        } finally {
            blocks.forEach((it) => this.calls.free(it));
        }
    }

    block(bytes) {
        const block = this.calls.alloc(bytes.length);
        if (block === 0) {
            throw new Refusal("memory");
        }
        new Uint8Array(this.calls.memory.buffer, this.calls.place(block), bytes.length).set(bytes);
        return block;
    }

    out() {
        return new Uint8Array(this.calls.memory.buffer, this.calls.out(), this.calls.out_size()).slice();
    }

    given(status) {
        if (STATUS[status] !== "done") {
            throw new Refusal(STATUS[status], reader.decode(this.out()).trim());
        }
        return this.out();
    }

    bytes(name, ...things) {
        return this.call(name, things, (status) => this.given(status));
    }

    text(name, ...things) {
        return reader.decode(this.bytes(name, ...things));
    }

    value(name, ...things) {
        return JSON.parse(this.text(name, ...things));
    }

    /** What is said of a text: faults and warnings. */
    check(text) {
        return this.text("check", text).split("\n").filter(Boolean).map((it) => JSON.parse(it));
    }

    /** The text laid out: the same tokens and comments. */
    layout(text) {
        return this.text("layout", text);
    }

    /** The words that may stand at a byte of a text. */
    offered(text, byte) {
        return this.value("offered", text, byte);
    }

    /** What is told of the word at a byte of a text, or null. */
    told(text, byte) {
        return this.value("told", text, byte);
    }

    compile(text) {
        return this.bytes("compile", text);
    }

    /** Throws why bytes are no image. */
    load(image) {
        this.bytes("load", image);
    }

    dump(image) {
        return this.text("dump", image);
    }

    /** Whether bytes begin as an image does. */
    isImage(bytes) {
        return this.call("is_image", [bytes], (answer) => answer === 1);
    }

    explain(number) {
        return this.value("explain", number);
    }

    find(text, line) {
        return this.value("find", text, line);
    }

    /** Which sort of word it is. */
    word(word) {
        if (!this.words.has(word)) {
            this.words.set(word, this.call("word", [word], (answer) => answer === 1));
        }
        return this.words.get(word);
    }

    /** A desk with an image, and with a device where there is a text of one. */
    open(image, language, device) {
        const number = this.call("open", [image, language, device === null ? 0 : device], (desk) => {
            if (desk === 0) {
                this.given(this.calls.status());
            }
            return desk;
        });
        return new Desk(this, number);
    }
}

/** An instrument that is open. */
export class Desk {
    constructor(engine, number) {
        this.engine = engine;
        this.number = number;
    }

    state() {
        return this.engine.value("state", this.number);
    }

    take(line) {
        return this.engine.value("take", this.number, line);
    }

    go(steps) {
        return this.engine.value("go", this.number, steps);
    }

    reply() {
        return this.engine.value("reply", this.number);
    }

    speak(language) {
        this.engine.bytes("speak", this.number, language);
    }

    languages() {
        return this.engine.value("languages", this.number);
    }

    help(number) {
        return this.engine.text("help", this.number, number);
    }

    device() {
        return this.engine.value("device", this.number);
    }

    script() {
        return this.engine.value("script", this.number);
    }

    close() {
        this.engine.calls.close(this.number);
    }
}
