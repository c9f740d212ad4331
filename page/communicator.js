// The communicator: menus, variables and methods of a desk, as the engine gives them.

/** How many instructions a method executes, and how many requests are answered, before the page is shown again. */
const STEPS = 200_000;
const REPLIES = 20;

function element(name, className, text) {
    const made = document.createElement(name);
    made.className = className ?? "";
    made.textContent = text ?? "";
    return made;
}

function button(text, className, clicked) {
    const made = element("button", className, text);
    made.type = "button";
    made.addEventListener("click", clicked);
    return made;
}

const pause = (milliseconds) => new Promise((done) => setTimeout(done, milliseconds));

export class Communicator {
    /** `tell` is given each event of a run, `changed` is called where values may be new, `restart` begins with a new desk. */
    constructor(place, dialog, status, { tell, changed, restart }) {
        Object.assign(this, { place, dialog, status, tell, changed, restart, desk: null, path: [], titles: [], replies: 0 });
        dialog.addEventListener("cancel", (event) => {
            event.preventDefault();
            this.abort?.();
        });
    }

    /** Goes on with another desk, at the menu where the user was, as far as it is there. */
    use(desk, title) {
        this.leave();
        this.desk = desk;
        this.title = title;
        const path = this.path;
        this.path = [];
        this.titles = [];
        this.state = desk.state();
        this.said("");
        for (const number of path) {
            if (!this.enter(number)) {
                break;
            }
        }
        this.show();
    }

    /** Ends what a desk was about. */
    leave() {
        this.running = null;
        this.abort = null;
        this.place.inert = false;
        if (this.dialog.open) {
            this.dialog.close();
        }
    }

    /** Opens an entry if it is a menu. */
    enter(number) {
        const row = this.state.screen.rows.find((it) => it.number === number);
        if (row?.leads !== "menu") {
            return false;
        }
        this.titles.push(this.state.screen.title ?? this.title);
        this.path.push(number);
        this.desk.take(String(number));
        this.state = this.desk.state();
        return true;
    }

    /** Gives the desk a line, and shows what has become of it. */
    line(line) {
        const taken = this.desk.take(line);
        this.said(taken.is_done ? "" : taken.said);
        this.state = this.desk.state();
        this.changed();
        return taken;
    }

    said(text) {
        this.status.textContent = text.trim();
    }

    show(focused) {
        const { screen, sheet } = this.state;
        const parts = [this.head(screen)];
        if (screen.trap) {
            parts.push(element("p", "trap", `fault ${screen.trap}`));
        } else if (screen.rows.length === 0) {
            parts.push(element("p", "empty", "nothing is here"));
        }
        const list = element("ul", "rows");
        list.append(...screen.rows.map((row) => this.row(row)));
        parts.push(list);
        if (sheet) {
            parts.splice(1, parts.length, this.sheet(sheet));
        }
        this.place.replaceChildren(...parts);
        if (sheet) {
            this.enterAt(this.place);
        } else {
            this.place.querySelector(`[data-number="${focused}"]`)?.focus();
        }
    }

    /** Puts the focus where a value is entered. */
    enterAt(place) {
        const first = place.querySelector("input:checked:enabled, input:enabled") ?? place.querySelector("form button:enabled, button");
        first?.focus();
        if (first?.type === "text") {
            first.select();
        }
    }

    head(screen) {
        const head = element("div", "head");
        if (this.titles.length > 0 && !this.state.sheet) {
            const back = button("‹", "back", () => this.back());
            back.setAttribute("aria-label", `Back to ${this.titles[this.titles.length - 1]}`);
            head.append(back);
        }
        head.append(element("h3", "title", screen.title ?? this.title));
        return head;
    }

    back() {
        const number = this.path.pop();
        this.titles.pop();
        this.line("b");
        this.show(number);
    }

    row(row) {
        const item = element("li", `row ${row.leads}`);
        if (row.leads === "text") {
            item.append(element("p", "text", row.label));
            return item;
        }
        const open = button("", "entry", () => this.open(row));
        open.dataset.number = row.number;
        open.append(element("span", "label", row.label));
        const value = row.trap ? `fault ${row.trap}` : [row.value, row.unit].filter(Boolean).join(" ");
        const shown = element("span", row.trap ? "value trap" : "value", row.leads === "menu" ? "›" : row.leads === "method" ? "▶" : value);
        if (row.leads === "menu" || row.leads === "method") {
            shown.setAttribute("aria-label", row.leads);
        }
        open.append(shown);
        if (row.read_only) {
            const lock = element("span", "lock", "read only");
            open.append(lock);
        }
        const help = button("?", "help", () => this.help(row));
        help.setAttribute("aria-label", `Help of ${row.label}`);
        item.append(open, help);
        return item;
    }

    help(row) {
        let text = "there is no help";
        try {
            text = this.desk.help(row.number);
        } catch (error) {
            text = error.status === "unknown" ? text : error.message;
        }
        this.said(`${row.label}: ${text}`);
    }

    open(row) {
        this.said("");
        if (row.leads === "menu") {
            this.enter(row.number);
            this.show();
            this.place.querySelector(".entry, .back")?.focus();
            return;
        }
        this.focused = row.number;
        const taken = this.line(String(row.number));
        if (taken.started) {
            this.run(taken.started, row);
        } else {
            this.show(row.number);
        }
    }

    /** The form of a variable that is open. */
    sheet(sheet) {
        const leave = () => {
            this.line("");
            this.show(this.focused);
        };
        const form = this.form(sheet, (line, isPart) => {
            const taken = this.line(line);
            if (taken.is_done && isPart) {
                this.line(String(this.focused));
            }
            if (taken.is_done) {
                this.show(this.focused);
            }
            return taken.is_done;
        }, false);
        form.append(this.buttons(sheet, button("Back", "plain", leave)));
        form.addEventListener("keydown", (event) => event.key === "Escape" && leave());
        return form;
    }

    buttons(sheet, other) {
        const bar = element("div", "buttons");
        if (sheet.form !== "bits" || sheet.choices.length === 0) {
            const ok = element("button", "main", "OK");
            ok.type = "submit";
            ok.disabled = Boolean(sheet.refused);
            bar.append(ok);
        }
        bar.append(other);
        return bar;
    }

    /** What a variable is, and how it is entered: a number, a choice, or bits. */
    form(sheet, take, isAsked) {
        const form = element("form", "sheet");
        form.append(element("h4", "", sheet.label));
        if (sheet.help) {
            form.append(element("p", "help-text", sheet.help));
        }
        const facts = element("dl", "facts");
        const fact = (name, text) => text && facts.append(element("dt", "", name), element("dd", "", text));
        fact("now", [sheet.value, sheet.unit].filter(Boolean).join(" "));
        fact("type", sheet.kind);
        fact("at least", sheet.form === "number" ? sheet.lowest : null);
        fact("at most", sheet.form === "number" ? sheet.highest : null);
        form.append(facts);
        if (sheet.trap) {
            form.append(element("p", "trap", `fault ${sheet.trap}`));
        }
        if (sheet.refused) {
            form.append(element("p", "refused", `can't be set: ${sheet.refused}`));
        }
        const entered = this.entered(sheet, form, take, isAsked);
        form.addEventListener("submit", (event) => {
            event.preventDefault();
            take(entered(), false);
        });
        return form;
    }

    /** Adds what a value is entered with, and gives the function that says what was entered. */
    entered(sheet, form, take, isAsked) {
        if (sheet.form === "choice" && sheet.choices.length > 0) {
            return this.choices(sheet, form, take, isAsked);
        }
        if (sheet.form === "bits" && sheet.choices.length > 0) {
            return this.bits(sheet, form, take, isAsked);
        }
        const label = element("label", "", "New value");
        const input = element("input");
        input.name = "value";
        input.autocomplete = "off";
        input.value = sheet.entered;
        input.disabled = Boolean(sheet.refused);
        label.append(input);
        form.append(label);
        return () => input.value;
    }

    options(sheet, form, type, changed) {
        const group = element("fieldset");
        group.disabled = Boolean(sheet.refused);
        group.append(element("legend", "", sheet.form === "bits" ? "Bits" : "Values"));
        sheet.choices.forEach((choice) => {
            const label = element("label", "option");
            const box = element("input");
            box.type = type;
            box.name = "option";
            box.value = choice.value;
            box.checked = choice.is_on;
            box.addEventListener("change", () => changed(box));
            label.append(box, element("span", "", choice.label ?? choice.value));
            if (choice.help) {
                label.append(element("small", "", choice.help));
            }
            group.append(label);
        });
        form.append(group);
        return group;
    }

    /** One choice of several; outside of a method it is taken at once where it was clicked. */
    choices(sheet, form, take, isAsked) {
        const group = this.options(sheet, form, "radio", (box) => !isAsked && this.byPointer && take(box.value, false));
        if (!isAsked) {
            group.addEventListener("pointerdown", () => { this.byPointer = true; });
            group.addEventListener("keydown", () => { this.byPointer = false; });
        }
        return () => group.querySelector(":checked")?.value ?? sheet.entered;
    }

    /** Each bit is set or cleared by itself; a method is given all at once, with those that have no name as they were. */
    bits(sheet, form, take, isAsked) {
        let number = BigInt(sheet.entered || 0);
        this.options(sheet, form, "checkbox", (box) => {
            const bit = BigInt(box.value);
            if (isAsked) {
                number = box.checked ? number | bit : number & ~bit;
            } else if (!take(`${box.checked ? "+" : "-"}${bit}`, true)) {
                box.checked = !box.checked;
            }
        });
        return () => (isAsked ? String(number) : "");
    }

    /** Lets a method go on, shows what it asks, and gives it the answers, up to its end. */
    async run(name, row) {
        const desk = this.desk;
        const running = {};
        this.running = running;
        this.place.inert = true;
        this.tell({ method: name, label: row.label });
        try {
            while (this.running === running && await this.step(desk, row));
        } catch (error) {
            this.tell({ said: error.message });
            this.said(error.message);
        }
        if (this.running === running) {
            this.leave();
            this.state = desk.state();
            this.show(row.number);
            this.changed();
        }
    }

    /** Lets the page be shown, with a way out of a method that never asks. A dialog that is clicked has to stay the same. */
    async rest(row) {
        if (!this.dialog.open || !this.dialog.querySelector(".still")) {
            this.ask(row, element("p", "still", "The method still runs"), [button("Start anew", "abort", () => this.restart())]);
        }
        await pause(0);
        return true;
    }

    /** Says whether the method goes on. */
    async step(desk, row) {
        this.replies += 1;
        if (this.replies % REPLIES === 0) {
            return this.rest(row);
        }
        const gone = desk.go(STEPS);
        this.tell({ changes: gone.changes, said: gone.said });
        if (gone.turn === "runs") {
            return this.rest(row);
        }
        if (gone.turn !== "asks") {
            this.said(gone.said);
            return false;
        }
        const { asks } = desk.state();
        await this.reply(desk, row, asks);
        return true;
    }

    /** Gives the request of a method its answer: the device's where it has one, else the user's. */
    async reply(desk, row, asks) {
        if (asks.asks === "nothing") {
            this.said(asks.text ?? "");
            this.note(desk.take(""));
            return;
        }
        if (asks.asks === "wait") {
            const running = this.running;
            const isAborted = await this.wait(row, asks);
            if (this.running !== running) {
                return;
            }
            if (isAborted) {
                this.note(desk.take("abort"));
                return;
            }
        }
        const replied = desk.reply();
        if (replied.is_answered) {
            this.tell({ step: replied.step, said: replied.said, by: "device" });
            this.changed();
            return;
        }
        if (asks.asks === "wait") {
            this.note(desk.take(""));
            return;
        }
        await this.user(desk, row, asks);
    }

    note(taken) {
        this.tell({ step: taken.step, said: taken.is_done ? "" : taken.said, by: "user" });
        return taken.is_done;
    }

    /** Shows the dialog of a method. */
    ask(row, body, buttons) {
        const bar = element("div", "buttons");
        bar.append(...buttons);
        this.refusal = element("p", "refused");
        this.refusal.setAttribute("role", "alert");
        this.dialog.replaceChildren(element("h3", "", row.label), body, this.refusal, bar);
        if (!this.dialog.open) {
            this.dialog.showModal();
        }
        this.enterAt(this.dialog);
    }

    /** Waits as long as a method asks for. Says whether it was aborted in between. */
    wait(row, asks) {
        return new Promise((done) => {
            const body = element("div", "wait");
            const bar = element("progress");
            const seconds = Math.max(asks.seconds, 0);
            bar.max = Math.max(seconds, 0.001);
            bar.setAttribute("aria-label", `${seconds} s`);
            const left = element("p", "left");
            body.append(element("p", "question", asks.text ?? ""), bar, left);
            const start = performance.now();
            const running = this.running;
            const end = (isAborted) => {
                clearInterval(timer);
                this.abort = null;
                done(isAborted);
            };
            const draw = () => {
                const passed = (performance.now() - start) / 1000;
                bar.value = Math.min(passed, seconds);
                left.textContent = `${Math.max(Math.ceil(seconds - passed), 0)} s`;
                if (passed >= seconds || this.running !== running) {
                    end(false);
                }
            };
            const timer = setInterval(draw, 100);
            this.abort = () => end(true);
            this.ask(row, body, [button("Skip", "plain", () => end(false)), button("Abort", "abort", () => end(true))]);
            draw();
        });
    }

    /** Asks the user, again where an answer is refused. */
    user(desk, row, asks) {
        return new Promise((done) => {
            const take = (line) => {
                const taken = desk.take(line);
                this.refusal.textContent = taken.is_done ? "" : taken.said.trim();
                this.note(taken);
                if (taken.is_done) {
                    this.abort = null;
                    done();
                }
                return taken.is_done;
            };
            this.abort = () => take("abort");
            const abort = button("Abort", "abort", () => this.abort());
            const body = this.question(asks, take);
            this.ask(row, body, [...this.extra(asks, body, take), abort]);
        });
    }

    question(asks, take) {
        const body = element("div", "question-body");
        body.append(element("p", "question", asks.text ?? ""));
        if (asks.asks === "value") {
            const form = this.form(asks.sheet, take, true);
            form.id = "asked";
            body.append(form);
        }
        if (asks.asks === "choice") {
            const list = element("div", "choices");
            asks.choices.forEach((choice, at) => list.append(button(choice, "choice", () => take(String(at + 1)))));
            body.append(list);
        }
        if (asks.asks === "code") {
            const form = element("form", "sheet");
            form.id = "asked";
            const label = element("label", "", "Code of the device's answer");
            const input = element("input");
            input.value = "0";
            input.inputMode = "numeric";
            label.append(input);
            form.append(label);
            form.addEventListener("submit", (event) => {
                event.preventDefault();
                take(input.value);
            });
            body.append(form);
        }
        return body;
    }

    /** The buttons beside that of an abort. */
    extra(asks, body, take) {
        if (asks.asks === "enter") {
            return [button("OK", "main", () => take(""))];
        }
        if (asks.asks === "choice") {
            return [];
        }
        const ok = element("button", "main", "OK");
        ok.type = "submit";
        ok.setAttribute("form", "asked");
        return [ok];
    }
}
