// A text in an editor, and what the engine says of it.

const OPTIONS = {
    mode: "eddl", lineNumbers: true, matchBrackets: true, autoCloseBrackets: true, foldGutter: true, indentUnit: 4, tabSize: 4,
    gutters: ["CodeMirror-linenumbers", "finding-dots", "CodeMirror-foldgutter"], lineWrapping: false, inputStyle: "contenteditable",
    extraKeys: { Tab: false, "Shift-Tab": false, "Ctrl-Space": "autocomplete" },
};

/** What is quick and what is slow, in milliseconds. */
const QUICK = 30;
const SLOW = 60;

/** How long the mouse rests on a word before it is told of, in milliseconds. */
const REST = 400;

const writer = new TextEncoder();
const reader = new TextDecoder();

/** What is written in Markdown, as plain lines. */
function plain(markdown) {
    return markdown.replace(/^```.*$\n?/gm, "").replace(/\\([^\w\s])/g, "$1").replace(/[*`]/g, "").trim();
}

/** The units of UTF-16 before a column that counts characters from 1. */
function unitsBefore(line, column) {
    return [...line].slice(0, column - 1).join("").length;
}

export class Source {
    /** An editor at a place of the page; `changed` is called with each new text. */
    constructor(CodeMirror, engine, place, list, label, changed) {
        this.engine = engine;
        this.list = list;
        this.marks = [];
        this.spent = 0;
        this.editor = CodeMirror(place, { ...OPTIONS });
        this.editor.getInputField().setAttribute("aria-label", label);
        this.editor.on("changes", () => this.isQuiet || this.later(changed));
        this.editor.setOption("hintOptions", { hint: () => this.hints(), completeSingle: false });
        const shown = this.editor.getWrapperElement();
        shown.addEventListener("mousemove", (event) => this.rest(event));
        shown.addEventListener("mouseleave", () => clearTimeout(this.resting));
    }

    /** The byte of the text at a place of the editor, and the place at a byte. */
    byteAt(place) {
        return writer.encode(this.editor.getRange({ line: 0, ch: 0 }, place)).length;
    }

    placeAt(byte) {
        return this.editor.posFromIndex(reader.decode(writer.encode(this.text()).slice(0, byte)).length);
    }

    /** The words that may stand at the cursor. */
    hints() {
        const offered = this.engine.offered(this.text(), this.byteAt(this.editor.getCursor()));
        const [from, to] = [this.placeAt(offered.start), this.placeAt(offered.end)];
        const begun = this.editor.getRange(from, to).toLowerCase();
        const list = offered.entries.filter((it) => it.label.toLowerCase().startsWith(begun)).map((it) => ({
            text: it.label, displayText: it.detail ? `${it.label}  ${it.detail}` : it.label,
        }));
        return { list, from, to };
    }

    /** Where the mouse rests on a word, it is told of. */
    rest(event) {
        clearTimeout(this.resting);
        this.told?.clear();
        this.told = null;
        this.resting = setTimeout(() => {
            const place = this.editor.coordsChar({ left: event.clientX, top: event.clientY }, "window");
            this.tell(place);
        }, REST);
    }

    /** Marks the word at a place with what is to be told of it. */
    tell(place) {
        const told = place.outside ? null : this.engine.told(this.text(), this.byteAt(place));
        if (told && !this.editor.findMarksAt(place).some((it) => it.className?.startsWith("finding"))) {
            const attributes = { title: plain(told.markdown) };
            this.told = this.editor.markText(this.placeAt(told.start), this.placeAt(told.end), { className: "told", attributes });
        }
    }

    /** Lays the text out, which Undo takes back. */
    layOut() {
        const laidOut = this.engine.layout(this.text());
        if (laidOut !== this.text()) {
            this.editor.setValue(laidOut);
        }
    }

    text() {
        return this.editor.getValue();
    }

    /** Puts a text in the place of the one that is there, which Undo brings back. */
    write(text) {
        this.typed = null;
        this.isQuiet = true;
        this.editor.setValue(text);
        this.isQuiet = false;
        this.look();
    }

    /**
     * Looks at the text, and tells of it once the findings are painted. Where that is quick it is done before what was typed is
     * painted, else after it, and less often where it takes long.
     */
    later(changed) {
        const typed = {};
        this.typed = typed;
        const next = (action, wait) => setTimeout(() => this.typed === typed && action(), wait);
        const look = () => {
            const start = performance.now();
            this.look();
            this.spent = performance.now() - start;
            requestAnimationFrame(() => next(changed, 0));
        };
        if (this.spent < QUICK) {
            look();
        } else {
            next(look, this.spent > SLOW ? 3 * this.spent : 0);
        }
    }

    /** Shows the findings of the text as it is. */
    look() {
        let findings;
        try {
            findings = this.engine.check(this.text());
        } catch (error) {
            findings = [{ severity: "refused", message: error.message, line: null, helps: [] }];
        }
        this.editor.operation(() => this.mark(findings));
        this.list.replaceChildren(...findings.map((it) => this.item(it)));
        this.findings = findings;
        return findings;
    }

    position(line, column) {
        const at = Math.min(line - 1, this.editor.lastLine());
        return { line: at, ch: unitsBefore(this.editor.getLine(at) ?? "", column) };
    }

    mark(findings) {
        this.marks.forEach((it) => it.clear());
        this.editor.clearGutter("finding-dots");
        this.marks = findings.filter((it) => it.line !== null && it.line !== undefined).map((it) => {
            const start = this.position(it.line, it.column);
            let end = this.position(it.end_line ?? it.line, it.end_column ?? it.column);
            if (end.line === start.line && end.ch === start.ch) {
                end = { line: start.line, ch: start.ch + 1 };
            }
            this.editor.setGutterMarker(start.line, "finding-dots", this.dot(it));
            const words = [it.message, ...it.helps.map((help) => help.text)].join("\n");
            return this.editor.markText(start, end, { className: `finding ${it.severity}`, attributes: { title: words } });
        });
    }

    dot(finding) {
        const dot = document.createElement("span");
        dot.className = `dot ${finding.severity}`;
        dot.title = finding.message;
        dot.textContent = "●";
        return dot;
    }

    /** A finding in the list: its place, what is said, the helps, and what its number means. */
    item(finding) {
        const item = document.createElement("li");
        item.className = finding.severity ?? "more";
        const go = document.createElement("button");
        go.type = "button";
        go.className = "finding-line";
        const place = finding.line ? `${finding.line}:${finding.column} ` : "";
        go.textContent = finding.more ? `and ${finding.more} more` : `${place}${finding.severity}: ${finding.message}`;
        go.addEventListener("click", () => finding.line && this.show(this.position(finding.line, finding.column)));
        item.append(go);
        (finding.helps ?? []).forEach((help) => item.append(this.help(help)));
        if (finding.number) {
            item.append(this.meaning(finding.number));
        }
        return item;
    }

    help(help) {
        const line = document.createElement("p");
        line.className = "help";
        line.textContent = help.text;
        return line;
    }

    meaning(number) {
        const details = document.createElement("details");
        const summary = document.createElement("summary");
        summary.textContent = "What this means";
        const text = document.createElement("pre");
        details.append(summary, text);
        details.addEventListener("toggle", () => {
            if (details.open && text.textContent === "") {
                text.textContent = this.engine.explain(number).text;
            }
        });
        return details;
    }

    /** Puts the cursor at a place and shows it. */
    show(from, to = from) {
        this.editor.focus();
        this.editor.setSelection(from, to, { scroll: false });
        this.editor.scrollIntoView({ from, to }, 80);
    }
}
