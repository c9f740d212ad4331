// Runs the extension of VS Code in Node with stand-ins for the editor and its library, and writes down what it asks of them.
// tools/lsp_clients says which extension, description and file of tests, and looks at the answers.
const fs = require("fs");
const Module = require("module");
const asked = JSON.parse(fs.readFileSync(process.env.EDD_ASKED, "utf8"));

const answers = { commands: [], clients: [], terminals: [], errors: [] };
const commands = {};
const ends = [];

class EventEmitter {
    constructor() {
        this.listeners = [];
        this.event = listener => this.listeners.push(listener);
    }
    fire(value) {
        this.listeners.forEach(listener => listener(value));
    }
}

// A terminal; of one that the extension writes into, what it has written once the program has ended.
function createTerminal(options) {
    const terminal = { name: options.name, program: options.shellPath, words: options.shellArgs, text: "" };
    answers.terminals.push(terminal);
    const show = () => {
        if (options.pty) {
            ends.push(new Promise(done => options.pty.onDidWrite(text => {
                terminal.text += text;
                if (text.includes("ended with status")) {
                    done();
                }
            })));
            options.pty.open();
        }
    };
    return { show };
}

const active = uri => ({ document: { uri } });
const uriOf = name => ({ scheme: "file", fsPath: decodeURIComponent(name.replace("file://", "")), toString: () => name });

const vscode = {
    EventEmitter,
    SymbolKind: { Method: 5 },
    Uri: { parse: uriOf },
    commands: {
        registerCommand: (name, command) => {
            commands[name] = command;
            answers.commands.push(name);
            return { dispose() {} };
        },
        executeCommand: async () => [{ name: "a_menu", kind: 1 }, { name: asked.method, kind: 5 }],
    },
    window: {
        activeTextEditor: undefined,
        createTerminal,
        showErrorMessage: text => answers.errors.push(text),
        showQuickPick: async names => {
            answers.offered = names;
            return names[0];
        },
    },
    workspace: {
        textDocuments: [],
        createFileSystemWatcher: pattern => {
            answers.watched = pattern;
            return { dispose() {} };
        },
        getConfiguration: () => ({ get: name => name === "program" ? asked.program : undefined }),
    },
};

class LanguageClient {
    constructor(name, title, server, options) {
        answers.clients.push({ name, server, selector: options.documentSelector });
    }
    async start() {
        answers.started = true;
    }
    async stop() {
        answers.stopped = true;
    }
}

const load = Module._load;
Module._load = (name, ...more) => {
    const standIns = { vscode, "vscode-languageclient/node": { LanguageClient } };
    return standIns[name] || load(name, ...more);
};

async function main() {
    const extension = require(asked.extension);
    const context = { subscriptions: [] };
    await extension.activate(context);
    answers.subscriptions = context.subscriptions.length;
    await commands["edd.openInstrument"]();
    await commands["edd.runMethod"](asked.description, asked.method);
    vscode.window.activeTextEditor = active(uriOf(asked.description));
    await commands["edd.runMethod"]();
    await commands["edd.openInstrument"](asked.description);
    await commands["edd.runTest"](asked.tests, asked.test);
    await Promise.all(ends);
    await extension.deactivate();
    fs.writeFileSync(process.env.EDD_ANSWERS, JSON.stringify(answers));
}

main();
