// An image as `edd dump` prints it.

export class Image {
    /** `chosen` is given each line that is clicked. */
    constructor(CodeMirror, place, chosen) {
        this.editor = CodeMirror(place, { readOnly: true, lineNumbers: false, lineWrapping: false, mode: null });
        this.editor.getInputField().setAttribute("aria-label", "The image, line by line; Enter goes to the source");
        this.editor.on("mousedown", (editor, event) => {
            const at = editor.coordsChar({ left: event.clientX, top: event.clientY });
            this.choose(at.line, chosen);
        });
        this.editor.setOption("extraKeys", { Tab: false, "Shift-Tab": false, Enter: () => this.choose(this.editor.getCursor().line, chosen) });
        this.isShown = false;
    }

    /** Lays bytes open, at once if they are seen, else when they are. */
    show(bytes, engine) {
        this.pending = () => this.editor.setValue(engine.dump(bytes));
        this.refresh();
    }

    refresh() {
        const isSeen = this.editor.getWrapperElement().offsetParent !== null;
        if (isSeen && this.pending) {
            this.pending();
            this.pending = null;
        }
        if (isSeen) {
            this.editor.refresh();
        }
    }

    /** An instruction belongs to the row above it. */
    choose(line, chosen) {
        let at = line;
        while (at > 0 && this.editor.getLine(at).startsWith(" ")) {
            at -= 1;
        }
        chosen(this.editor.getLine(at) ?? "");
    }
}
