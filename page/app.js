// The page: editors on the one side, the communicator on the other, and what they say.
import { Communicator } from "./communicator.js";
import { defineEddl } from "./eddl.js";
import { Engine, Refusal } from "./engine.js";
import { Image } from "./image.js";
import { Run } from "./run.js";
import { Source } from "./source.js";
import { fromAddress, fromStore, save, toAddress } from "./kept.js";

const find = (id) => document.getElementById(id);

class App {
    async start() {
        const [engine, examples] = await Promise.all([Engine.at("edd.wasm"), fetch("examples.json").then((it) => it.json())]);
        Object.assign(this, { engine, examples });
        this.engine.restarted = () => { this.desk = null; };
        defineEddl(window.CodeMirror, this.engine);
        this.source = this.editor("source", "Source of the instrument");
        this.device = this.editor("device", "Source of the device");
        this.image = new Image(window.CodeMirror, find("image-lines"), (line) => this.goTo(line));
        this.run = new Run(find("run-list"));
        this.communicator = new Communicator(find("screen"), find("asked-dialog"), find("said"),
            { tell: (event) => this.run.add(event), changed: () => this.showDevice(), restart: () => this.openAnew() });
        this.listen();
        await this.first();
        document.body.dataset.ready = performance.now();
    }

    editor(name, label) {
        return new Source(window.CodeMirror, this.engine, find(`${name}-editor`), find(`${name}-findings`), label, () => this.changed());
    }

    /** What was shared or kept, or else the first example. */
    async first() {
        this.fill();
        const kept = await fromAddress(location.hash) ?? fromStore();
        if (kept) {
            this.write(kept.source, kept.device, kept.name);
        } else {
            await this.example(this.examples[0].name);
        }
    }

    fill() {
        find("examples").append(...this.examples.map((it) => new Option(it.title, it.name)));
    }

    async example(name) {
        const example = this.examples.find((it) => it.name === name);
        const text = async (file) => (file ? (await fetch(`examples/${file}`)).text() : "");
        const [source, device] = await Promise.all([text(example.source), text(example.device)]);
        this.write(source, device, example.name);
        this.keep();
    }

    write(source, device, name) {
        this.name = name;
        this.isImage = false;
        this.communicator.path = [];
        find("examples").value = this.examples.some((it) => it.name === name) ? name : "";
        this.source.write(source);
        this.device.write(device);
        this.open();
    }

    changed() {
        this.isImage = false;
        this.open();
        clearTimeout(this.keeping);
        this.keeping = setTimeout(() => this.keep(), 400);
    }

    keep() {
        save({ source: this.source.text(), device: this.device.text(), name: this.name });
    }

    /** Compiles the text and opens it on the desk. What was open stays where it is refused. */
    open() {
        try {
            const image = this.engine.compile(this.source.text());
            this.openImage(image);
            this.stale("");
        } catch (error) {
            this.refused(error);
        }
    }

    openImage(image) {
        const language = find("languages").value || "en";
        const text = this.device.text();
        const desk = this.engine.open(image, language, text.trim() === "" ? null : this.compiled(text));
        this.desk?.close();
        this.desk = desk;
        this.bytes = image;
        this.speak();
        this.communicator.use(desk, this.title());
        this.image.show(image, this.engine);
        this.showDevice();
    }

    title() {
        return this.examples.find((it) => it.name === this.name)?.title ?? "Instrument";
    }

    /** The text of a device, if it is one; else the desk is without, and the editor says why. */
    compiled(text) {
        try {
            this.engine.compile(text);
            return text;
        } catch (error) {
            if (error.status === "refused") {
                return null;
            }
            throw error;
        }
    }

    refused(error) {
        if (!(error instanceof Refusal)) {
            throw error;
        }
        this.stale(this.desk ? `This is of an earlier text, since the one at hand is refused: ${error.message}` : error.message);
        if (!this.desk) {
            this.communicator.leave();
            find("screen").replaceChildren();
        }
    }

    stale(text) {
        find("stale").textContent = text;
        find("instrument").classList.toggle("is-stale", text !== "");
    }

    /** Offers the languages of the texts. */
    speak() {
        const list = find("languages");
        const chosen = list.value || navigator.language.slice(0, 2);
        const codes = this.desk.languages();
        list.replaceChildren(...(codes.length > 0 ? codes : ["en"]).map((it) => new Option(it, it)));
        list.value = codes.includes(chosen) ? chosen : codes.includes("en") ? "en" : codes[0] ?? "en";
        this.desk.speak(list.value);
    }

    /** Shows the variables of the device, once for all changes of a frame. */
    showDevice() {
        this.drawing ??= requestAnimationFrame(() => {
            this.drawing = null;
            this.drawDevice();
        });
    }

    drawDevice() {
        const values = this.desk ? this.desk.device() : [];
        find("no-device").hidden = values.length > 0;
        find("device-values").replaceChildren(...values.map((it) => {
            const row = document.createElement("tr");
            const name = document.createElement("th");
            name.scope = "row";
            name.textContent = it.label;
            const value = document.createElement("td");
            value.textContent = it.value;
            row.append(name, value);
            return row;
        }));
    }

    /** Shows where the source has what a line of the image is about. */
    goTo(line) {
        const spot = this.isImage ? null : this.engine.find(this.source.text(), line);
        if (spot) {
            this.choose("source");
            const from = { line: spot.line - 1, ch: spot.before };
            this.source.show(from, { line: from.line, ch: spot.before + spot.length });
        }
    }

    /** Shows a tab of those that belong together, and on a narrow page its part. */
    choose(name) {
        const tab = find(`${name}-tab`);
        const part = tab.closest(".part");
        part.querySelectorAll("[role=tab]").forEach((it) => {
            it.setAttribute("aria-selected", String(it === tab));
            it.tabIndex = it === tab ? 0 : -1;
            find(it.getAttribute("aria-controls")).hidden = it !== tab;
        });
        this.part(part.id);
        this.source.editor.refresh();
        this.device.editor.refresh();
        this.image.refresh();
    }

    part(id) {
        document.body.dataset.part = id;
        document.querySelectorAll("#parts button").forEach((it) => it.setAttribute("aria-pressed", String(it.dataset.part === id)));
    }

    listen() {
        window.addEventListener("error", (event) => { find("said").textContent = event.message; });
        window.addEventListener("unhandledrejection", (event) => { find("said").textContent = String(event.reason); });
        find("examples").addEventListener("change", (event) => event.target.value && this.example(event.target.value));
        find("languages").addEventListener("change", () => this.openAnew());
        find("restart").addEventListener("click", () => this.openAnew());
        find("share").addEventListener("click", () => this.share());
        find("file").addEventListener("change", (event) => this.read(event.target.files[0]));
        find("lay-out").addEventListener("click", () => this.layOut());
        find("save-source").addEventListener("click", () => this.saveFile(`${this.fileName()}.edd`, this.source.text()));
        find("save-image").addEventListener("click", () => this.bytes && this.saveFile(`${this.fileName()}.edi`, this.bytes));
        find("save-script").addEventListener("click", () => this.saveRun("script", (method, script) => script));
        find("save-test").addEventListener("click", () => this.saveRun("test", (method, script) =>
            `source ${this.fileName()}.edd\n\ntest ${method}\nmethod ${method}\n${script}`));
        find("clear-run").addEventListener("click", () => this.run.clear());
        document.querySelectorAll("#parts button").forEach((it) => it.addEventListener("click", () => {
            this.part(it.dataset.part);
            this.source.editor.refresh();
        }));
        document.querySelectorAll("[role=tab]").forEach((it) => it.addEventListener("click", () => this.choose(it.id.replace("-tab", ""))));
        document.querySelectorAll("[role=tablist]").forEach((it) => it.addEventListener("keydown", (event) => this.turn(event)));
        window.addEventListener("hashchange", async () => {
            const kept = await fromAddress(location.hash);
            if (kept) {
                this.write(kept.source, kept.device, kept.name);
            }
        });
    }

    /** Left and right go from tab to tab. */
    turn(event) {
        const step = { ArrowRight: 1, ArrowLeft: -1 }[event.key];
        if (step) {
            const tabs = [...event.currentTarget.querySelectorAll("[role=tab]")];
            const next = tabs[(tabs.indexOf(document.activeElement) + step + tabs.length) % tabs.length];
            this.choose(next.id.replace("-tab", ""));
            next.focus();
        }
    }

    openAnew() {
        if (this.isImage) {
            this.openImage(this.bytes);
        } else {
            this.open();
        }
    }

    /** Lays out the text that is shown. */
    layOut() {
        try {
            (find("device").hidden ? this.source : this.device).layOut();
        } catch (error) {
            find("said").textContent = error.message;
        }
    }

    async share() {
        this.keep();
        const address = await toAddress({ source: this.source.text(), device: this.device.text(), name: this.name });
        history.replaceState(null, "", address);
        await navigator.clipboard?.writeText(location.href).catch(() => {});
        find("said").textContent = "The address of this page holds both texts now; it was copied where the browser allows it.";
    }

    /** Opens a file: a source, or an image. */
    async read(file) {
        if (!file) {
            return;
        }
        const bytes = new Uint8Array(await file.arrayBuffer());
        this.name = file.name.replace(/\.\w+$/, "");
        if (this.engine.isImage(bytes)) {
            this.readImage(bytes);
        } else {
            this.write(new TextDecoder().decode(bytes), "", this.name);
        }
    }

    /** An image has no source; one that is refused is laid open as far as it goes. */
    readImage(bytes) {
        this.isImage = true;
        this.communicator.path = [];
        try {
            this.openImage(bytes);
            this.stale("This is an image that was opened, and not the text beside it.");
        } catch (error) {
            this.refused(error);
            this.image.show(bytes, this.engine);
            this.choose("image");
        }
    }

    fileName() {
        return this.name || "instrument";
    }

    /** Saves what `text` makes of the last method and its script. */
    saveRun(ending, text) {
        try {
            const [method, script] = this.desk.script();
            this.saveFile(`${this.fileName()}.${method}.${ending}`, text(method, script));
        } catch (error) {
            find("said").textContent = "no method was run";
        }
    }

    saveFile(name, content) {
        const link = document.createElement("a");
        link.href = URL.createObjectURL(new Blob([content]));
        link.download = name;
        link.click();
        URL.revokeObjectURL(link.href);
    }
}

window.app = new App();
window.app.start().catch((error) => {
    find("stale").textContent = `The page could not start: ${error.message}`;
});
