// The list of what methods asked, what was answered, and what changed.

/** How many lines are kept. */
const MOST = 2000;

export class Run {
    constructor(list) {
        this.list = list;
    }

    clear() {
        this.list.replaceChildren();
    }

    line(className, text) {
        const item = document.createElement("li");
        item.className = className;
        item.textContent = text;
        this.list.append(item);
        if (this.list.childElementCount > MOST) {
            this.list.firstElementChild.remove();
        }
        this.scroll();
    }

    /** Shows the last line, once for all lines of a frame. */
    scroll() {
        if (!this.isScrolling) {
            this.isScrolling = true;
            requestAnimationFrame(() => {
                this.isScrolling = false;
                this.list.scrollTop = this.list.scrollHeight;
            });
        }
    }

    add(event) {
        if (event.method) {
            this.line("method", event.label);
        }
        if (event.step) {
            this.line("request", event.step.request.trim());
            this.line(`answer ${event.by}`, event.step.answer.trim());
        }
        (event.changes ?? []).forEach((it) => this.line("change", `${it.name} = ${it.value}`));
        if (event.said) {
            this.line("said", event.said.trim());
        }
    }
}
